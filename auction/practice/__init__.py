"""Practices: auctions against scripted rivals, for one person or hosted for many."""


class PracticeFault(Exception):
    """Why a practice does not begin, or cannot continue, in words for people."""
