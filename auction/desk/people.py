"""The people of the desk, by their tokens: the operator, and those of nginx's desk.map."""
import hmac
import re
from pathlib import Path

OPERATOR = "operator"
LINE = re.compile(r'"Bearer ([^"\s]{16,64})" ([a-z][a-z0-9_-]{0,31});')


class People:
    """Who may come to the desk."""

    def __init__(self, tokens: dict[str, str]) -> None:
        self.tokens = tokens  # of each name

    @classmethod
    def read(cls, operator: str, path: Path) -> "People":
        """The operator with this token, and the people of a file. A ValueError says what is wrong.

        Two people with one name or one token would be one person.
        """
        tokens = {OPERATOR: operator}
        lines = path.read_text(encoding="utf-8").splitlines() if path.exists() else []
        for number, line in enumerate(lines, 1):
            if not line.strip() or line.startswith("#"):
                continue
            found = LINE.fullmatch(line.strip())
            if not found:
                raise ValueError(f'{path}: line {number} is not "Bearer TOKEN" name;')
            token, name = found.groups()
            if name in tokens or token in tokens.values():
                raise ValueError(f"{path}: line {number} has a name or a token for the second time")
            tokens[name] = token
        return cls(tokens)

    @property
    def names(self) -> frozenset[str]:
        return frozenset(self.tokens)

    def of(self, header: str) -> str | None:
        """Whose a header `authorization` is, or None."""
        kind, _, token = header.partition(" ")
        found = None
        for name, expected in self.tokens.items():
            if hmac.compare_digest(token.encode(), expected.encode()) and kind == "Bearer":
                found = name
        return found
