"""The parts of `auction verify`.

- `case`: the files that are checked, and their content
- `auction`: checks of the journal: its records, the rules, what was published of each round
- `announced`, `windows`, `increments`: checks of the notices: their chain, windows, increments
- `promised`: checks of what was fixed earlier: the commitment, tie-breaking numbers, receipts
- `folder`: checks of a record that `auction record` made: its tables and its index
- `findings`: all checks in order, and the result of each
"""
