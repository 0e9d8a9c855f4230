"""What is published before round 1, and who signs receipts."""
import grp
import itertools
import json
import stat
from pathlib import Path

from auction.conductor.chain import Chain
from auction.formats.setup import Setup
from auction.formats.signatures import public_of
from auction.formats.ties import Commitment

from .auction import Auction
from .findings import Check, Fault, ensure

MOST_WORDS = 6  # of a command line up to `receipts`: Python, its options, and `auction`


def commitment(auction: Auction) -> str:
    """Checks that it is of this set-up and of the secrets in `kept/`, and that everyone sees it."""
    file, setup = auction.folder / "public/commitment.json", Setup.read(auction.setup_file)
    ensure(file.exists(), "it is missing: `auction commit SETUP kept public`")
    found = Commitment.read(file)
    ensure(
        found.auction == setup.digest, "it is of another set-up: use new folders kept and public"
    )
    key = public_of((auction.folder / "kept/receipts.pem").read_bytes())
    ensure(found.key == key, "kept/receipts.pem is another key")
    chain = Chain.read(auction.folder / "kept/chain.json", setup)
    ensure(found.chain == chain.committed(), "kept/chain.json is another chain")
    page = auction.page(auction.bidders_port, "/public/commitment.json")
    ensure(page == json.loads(file.read_bytes()), "nginx shows another one")
    return f"published, {'with' if found.chain else 'without'} tie-breaking numbers"


def receipts(auction: Auction) -> str:
    """nginx's workers, and no one else, may read the receipts; and a process signs them."""
    folder = auction.folder / "receipts"
    ensure(
        folder.is_dir(),
        "the folder receipts is missing: install -d -m 2750 -g auction-nginx receipts",
    )
    mode, group = stat.S_IMODE(folder.stat().st_mode), grp.getgrgid(folder.stat().st_gid).gr_name
    ensure(
        mode & 0o077 == 0o050 and group == auction.worker,
        f"receipts is for the group {group}, with mode {mode:o}",
    )
    for process in Path("/proc").glob("[0-9]*"):
        if signs(process, folder):
            return f"process {process.name} signs them"
    raise Fault("no one signs them: run `auction receipts`, or its unit")


def signs(process: Path, folder: Path) -> bool:
    """Whether a process runs `auction receipts` for this folder, however its words name it."""
    try:
        words = (process / "cmdline").read_bytes().decode().rstrip("\0").split("\0")
        place = (process / "cwd").readlink()
    except (OSError, ValueError):
        return False
    for count, (program, command) in enumerate(itertools.pairwise(words[:MOST_WORDS])):
        if Path(program).name == "auction" and command == "receipts":
            others = words[count + 2 :]
            return any((place / word).resolve() == folder.resolve() for word in others)
    return False


CHECKS = [Check("commitment", commitment), Check("receipts", receipts)]
