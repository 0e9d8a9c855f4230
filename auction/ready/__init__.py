"""What `auction ready` looks at before an auction opens, one subject a file.

- `findings`: a check, and what it found;
- `auction`: the auction's folder, with the ports of its nginx.conf;
- `files`, `published`, `ports`, `certificate`, `machine`, `standby`: the checks;
- `maps`: what nginx reads of a set-up, which `auction maps` prints.
"""
