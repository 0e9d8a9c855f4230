"""Builds a program of this folder over a copy of the crates, and runs it on requests."""
import pathlib
import shutil
import subprocess
import sys

TOP = pathlib.Path(__file__).resolve().parent.parent
sys.path.insert(0, str(TOP))

from tests.lib.http import compact, text_of


def build(name, work):
    """Adds the program NAME.rs to a copy of the repository, and builds it."""
    source = (TOP / "bench" / f"{name}.rs").read_text()
    uses = next(line for line in source.splitlines() if line.startswith("//! Uses:")).removeprefix(
        "//! Uses:"
    )
    shutil.copytree(TOP / "crates", work / "crates")
    (work / "crates.txt").write_text((TOP / "crates.txt").read_text() + f"bench_{name}:{uses}\n")
    crate = work / "crates" / f"bench_{name}"
    for folder, file, text in [
        ("src", "main.rt", source),
        ("specs", "Lib.antt", ""),
        ("proofs", "Lib.antt", ""),
    ]:
        (crate / folder).mkdir(parents=True)
        (crate / folder / file).write_text(text)
    # without input, each program does nothing and ends with status 0
    built = subprocess.run(
        ["rt", "run"], cwd=crate, stdin=subprocess.DEVNULL, stdout=subprocess.DEVNULL
    )
    if built.returncode != 0:
        sys.exit(built.returncode)
    return crate / "out" / f"bench_{name}"


def setup_document(products, bidders):
    """A set-up document with these numbers of products and bidders."""
    made = subprocess.run(
        [TOP / "bench" / "setup_document", str(products), str(bidders)],
        capture_output=True,
        check=True,
    )
    return made.stdout.decode()


def sent(line, token, value):
    """A request with a body."""
    return text_of(line, token, compact(value)).decode()


def put(bidder, number, bids):
    """A bidder's sheet with these quantities and prices, one for each product."""
    bids = [
        {"price": price, "product": product, "quantity": quantity}
        for product, (quantity, price) in enumerate(bids)
    ]
    return sent("PUT /v1/me/bids", f"{bidder:020d}", {"bids": bids, "round": number})


def figures(program, parts):
    """Yields for each group its name, count, nanoseconds, and replies that were not 200 OK."""
    done = subprocess.run(
        [program], input="\1".join(parts).encode(), stdout=subprocess.PIPE, check=True
    )
    for line in done.stdout.decode().splitlines():
        name, count, nanoseconds, others = line.split("\t")
        yield name, int(count), int(nanoseconds), int(others)
