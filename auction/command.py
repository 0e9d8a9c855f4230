"""What a command of `auction` is."""
import argparse
import dataclasses
from collections.abc import Callable
from typing import Self


@dataclasses.dataclass(frozen=True)
class Command:
    """A command: its name, its help, its arguments, and what it does.

    `summary` is one line, and `text` the rest of the help. `run` returns the exit status. A
    SystemExit with words ends the command with status 1.
    """

    name: str
    summary: str
    text: str
    arguments: Callable[[argparse.ArgumentParser], None]
    run: Callable[[argparse.Namespace], int]

    @classmethod
    def of(
        cls,
        name: str,
        help: str | None,
        arguments: Callable[[argparse.ArgumentParser], None],
        run: Callable[[argparse.Namespace], int],
    ) -> Self:
        """The command whose help is the text at the head of a module."""
        summary, _, text = (help or "").partition("\n")
        return cls(name, summary, text.strip(), arguments, run)
