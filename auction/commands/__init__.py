"""The commands of `auction`, one subject a file."""
