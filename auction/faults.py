"""What Python and the system say of files, in words for people."""
import re

# What to do about an error of the system, by its words.
ADVICE = {
    "No such file or directory": "check the name",
    "Is a directory": "name a file in it",
    "Not a directory": "name a folder",
    "Permission denied": "run the command as root, or as the owner of the file",
    "File exists": "name a new one",
    "No space left on device": "free space",
}
NUMBERED = re.compile(r"\[Errno \d+\] ([^:]+)(?:: '([^']*)')?(?: -> '[^']*')?")
SHOWN = re.compile(r"(?:[A-Z]\w*Error|OSError)\(\d+, '([^']*)'\)")
BRACKETS = re.compile(
    r"(?:JSONDecodeError\(['\"](.*?)['\"]\)"
    r"|UnicodeDecodeError\(.*\)"
    r"|'utf-8' codec can't decode byte \w+ in position \d+: [a-z ]+)",
    re.DOTALL,
)


def advised(words: str) -> str:
    """The system's words, with what to do."""
    advice = ADVICE.get(words)
    return f"{words}: {advice}" if advice else words


def in_words(text: str) -> str:
    """A text in which errors of Python name the file, the reason, and what to do."""
    text = NUMBERED.sub(lambda found: f"{found[2]}: {advised(found[1])}", text)
    text = SHOWN.sub(lambda found: advised(found[1]), text)
    return BRACKETS.sub(lambda found: f"no JSON: {found[1]}" if found[1] else "no UTF-8", text)
