"""The formats that the commands share, one subject a file.

- `setup`: the parts of a set-up that the operator's tools read
- `journal`: the server's journal, read on as it grows
- `ties`: seeds and tie-breaking numbers
- `receipts`: receipts, and a bidder's file of them
- `lots`: the order of bidders by a committed seed and a draw
- `notices`: the chain of what the operator says to everyone
- `signatures`: Ed25519 keys and signatures
- `tables`: the tables of a record
"""
