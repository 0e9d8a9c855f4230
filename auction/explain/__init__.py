"""What `auction explain` finds in a document.

- `reading`: a JSON text as the program reads it, and where its parts are
- `schemas`: the schemas of the formats
- `form`: what a schema finds, in words
- `rules`: what else the program refuses
- `faults`: all faults of a document, in the order of the text
"""
