"""Checks of a record that `auction record` made: its files and its index."""
import hashlib

from auction.formats import record
from auction.formats.record import INDEX

from .case import Absent, Case, Failed


def is_published(name: str) -> bool:
    return record.PUBLISHED.fullmatch(name) is not None


def check_tables(case: Case) -> str:
    """Compares each file of a record with what follows from the set-up, the journal that are
    verified, and what was published. A record has no other files.
    """
    if not case.is_record:
        raise Absent(f"{case.published} is no record of `auction record`, and has no tables")
    names = record.names_in(case.published) - {INDEX}
    published = {name: case.text(name) for name in names if is_published(name)}
    made = record.files_of(case.document, case.journal, published, case.counted)
    faults = [f"{name} is no file of a record" for name in sorted(names - made.keys())]
    for name, text in made.items():
        path = case.published / name
        if not path.is_file():
            faults.append(f"{name} is not there")
        elif path.read_bytes() == text:
            continue
        elif name in ("setup.json", "auction.journal"):
            faults.append(f"{name} of the record is another file than the one that is verified")
        else:
            faults.append(
                f"{name} is not what follows from the set-up, the journal, and what was published"
            )
    if faults:
        raise Failed(*faults)
    return (
        f"{len(made) - len(published)} files are what follows from the set-up, the journal, and "
        "what was published"
    )


def check_no_index(case: Case) -> str:
    """A folder without an index may have what was published, and nothing that a record has."""
    others = sorted(name for name in record.names_in(case.published) if not is_published(name))
    if found := [name for name in others if name in record.OWN]:
        raise Failed(
            f"{case.published} has {found[0]}, as a record has, and no {INDEX}: a record without "
            "its index is no record"
        )
    strangers = f", and {', '.join(others)} were not checked" if others else ""
    raise Absent(f"{case.published} has no {INDEX}{strangers}")


def check_index(case: Case) -> str:
    """Checks that the index of a record lists each of its files once, with its SHA-256."""
    if not case.is_record:
        return check_no_index(case)
    index = case.text(INDEX)
    lines = index.decode().split("\n")
    listed = {name: digest for digest, _, name in (line.partition("  ") for line in lines if line)}
    names = record.names_in(case.published) - {INDEX}
    paths = {name: case.published / name for name in names}
    files = {name: path.read_bytes() for name, path in paths.items() if path.is_file()}
    faults = [f"{name} is in the index, and not there" for name in sorted(listed.keys() - names)]
    faults += [f"{name} is there, and not in the index" for name in sorted(names - listed.keys())]
    faults += [
        f"{name} has another SHA-256 than the index"
        for name in sorted(files.keys() & listed.keys())
        if hashlib.sha256(files[name]).hexdigest() != listed[name]
    ]
    if not faults and index != record.index_of(files):
        faults.append(f"{INDEX} is not written as `auction record` writes it")
    if faults:
        raise Failed(*faults)
    return f"{len(files)} files have the SHA-256 of the index"


CHECKS = [("tables", check_tables), ("index", check_index)]
