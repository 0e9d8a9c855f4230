"""The shell sessions that a document shows: commands, and their output."""
import collections.abc
import re


def typed_lines(text: str) -> collections.abc.Iterator[tuple[str, str]]:
    """Yields each indented line of a text that begins with `$ `, with the lines below it."""
    for block in re.findall(r"(?m)(?:^    .*\n)+", text):
        for part in ("\n" + "".join(line[4:] for line in block.splitlines(True))).split("\n$ ")[1:]:
            while "\\\n" in part:
                part = re.sub(r"\\\n *", "", part, count=1)
            command, _, output = part.partition("\n")
            yield command, output.strip("\n")


def comparable(text: str) -> str:
    """A text without digests, keys, places in a journal, and times of logs, which differ from run
    to run.
    """
    text = re.sub(r"(?m)^\d{4}-\S+Z (?=[a-z]+: )", "TIME ", text)
    text = re.sub(r"\b[0-9a-f]{64}\b|\b[0-9a-f]{12}\.\.", "DIGEST", text)
    text = re.sub(r"\bMCowBQYDK2VwAyEA[A-Za-z0-9+/]{43}=", "KEY", text)
    return re.sub(r"(?<=journal_damaged )\d+", "PLACE", text)
