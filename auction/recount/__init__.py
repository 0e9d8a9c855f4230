"""The second implementation of the rules, for auditors.

- `rules`: docs/rules.md as a program, in the order of that document
- `formats`: docs/formats.md as a program
"""
