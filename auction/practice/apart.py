"""A hosted practice has nothing of a real auction: no user, no port, no token."""
import json
import os
import pathlib
import pwd
from typing import NamedTuple

FOLDER = "/srv/auction"  # of the units
USERS = ("auction-server", "auction-nginx")  # of the units
PORTS = (8105, 8106, 8443)  # of the server, the operator, and bidders


class Around(NamedTuple):
    """What a host would share with a real auction."""

    user: str
    is_root: bool
    enters: bool  # whether this user can enter the auction's folder
    ports: range  # of the pages and of the games' servers
    has_tokens: bool  # whether the set-up to practice has tokens


def around(port: int, games: int, setup: pathlib.Path | None) -> Around:
    """What is around this process."""
    user = os.geteuid()
    try:
        name = pwd.getpwuid(user).pw_name
    except KeyError:
        name = str(user)
    enters = os.path.isdir(FOLDER) and os.access(FOLDER, os.X_OK)
    ports = range(port, port + games + 1)
    return Around(name, user == 0, enters, ports, bool(setup) and has_tokens(setup))


def has_tokens(setup: pathlib.Path | None) -> bool:
    """Whether a document has tokens, as far as it can be read."""
    try:
        return bool(setup) and "operator" in json.loads(pathlib.Path(str(setup)).read_bytes())
    except (OSError, ValueError, TypeError):
        return False


def shared(found: Around) -> str | None:
    """What is of a real auction, in words, or None."""
    if found.is_root:
        return "run it as a user of its own, not as root, who can read the real auction"
    if found.user in USERS:
        return f"{found.user} is a user of the real auction: run it as a user of its own"
    if found.enters:
        return f"{found.user} can enter {FOLDER}: run it as a user of its own"
    if taken := [port for port in PORTS if port in found.ports]:
        return f"port {taken[0]} is of the real auction: choose others with --port"
    if found.has_tokens:
        return "the set-up has the tokens of an auction: give the page of GET /v1/products"
    return None
