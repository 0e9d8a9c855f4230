"""An auction's folder, as nginx, the conductor, and the receipts' service use it."""
import dataclasses
import datetime
import grp
import ipaddress
import json
import os
import pathlib
import re
import secrets
import shutil

from cryptography import x509
from cryptography.hazmat.primitives import hashes, serialization
from cryptography.hazmat.primitives.asymmetric import ec
from cryptography.x509.oid import NameOID

from auction import mock
from auction.conductor import commitment, disk
from auction.conductor.settings import group_of_workers
from auction.formats.setup import Setup
from auction.installed import installed
from auction.pages import copy_pages
from auction.ready import maps

USUAL_PORT, USUAL_PLACE = 8443, "/srv/auction"
# The journal of the systemd unit, whose folder is USUAL_PLACE.
JOURNAL_OF_UNIT = "/var/lib/private/clock_auction/auction.journal"
OPEN, PRIVATE = 0o644, 0o600
DAYS_OF_A_TRIAL = 30
# The folders, their modes, and whether they belong to the group of nginx's workers.
FOLDERS = (
    ("tmp", 0o755, False),
    ("log", 0o755, False),
    ("gate", 0o755, False),
    ("public", 0o755, False),
    ("public/rounds", 0o755, False),
    ("kept", 0o700, False),
    ("state", 0o700, False),
    ("inner", 0o710, True),
    ("operator", 0o2750, True),
    ("receipts", 0o2750, True),
)
LOGS = ("access.log", "refused.log")  # in the folder log, for root only


class FolderFault(Exception):
    """Why no folder is made."""


@dataclasses.dataclass(frozen=True)
class Certificate:
    """The files of a certificate and its key. Without them, one for a trial is made."""

    chain: pathlib.Path
    key: pathlib.Path


@dataclasses.dataclass(frozen=True)
class Plan:
    """What a folder is made from."""

    document: bytes  # the set-up
    host: str  # the name that bidders use
    port: int = USUAL_PORT
    journal: str = "auction.journal"  # counted from the folder
    has_ties: bool = True
    certificate: Certificate | None = None
    names: str | None = None  # long names, for everyone
    worker: str = "auction-nginx"  # the user of nginx's workers, and its group


def make(folder: pathlib.Path, plan: Plan) -> None:
    """Makes a folder with all that an auction needs before it opens.

    It is made next to its place, and renamed at the end: it is whole, or not there. Of two calls at
    once, the second one waits for the first, and is refused.
    """
    old = os.umask(0o022)
    try:
        folder.parent.mkdir(parents=True, exist_ok=True)
        with disk.locked_folder(folder.parent):
            if folder.exists() and (not folder.is_dir() or any(folder.iterdir())):
                raise FolderFault(f"{folder} is there already, and is not empty")
            make_alone(folder, folder.with_name(f"{folder.name}.new"), plan)
    finally:
        os.umask(old)


def make_alone(folder: pathlib.Path, fresh: pathlib.Path, plan: Plan) -> None:
    """Makes a folder under another name, and renames it, while no other process makes one."""
    shutil.rmtree(fresh, ignore_errors=True)
    try:
        fresh.mkdir()
        write_services(fresh, folder.absolute(), plan)
        make_folders(fresh)
        write_files(fresh, plan)
        write_certificate(fresh, plan)
        if folder.exists():
            folder.rmdir()
        os.rename(fresh, folder)
        disk.sync_folder(folder.parent)
    finally:
        shutil.rmtree(fresh, ignore_errors=True)


def write_services(folder: pathlib.Path, place: pathlib.Path, plan: Plan) -> None:
    """Copies the pages, and what configures nginx and the firewall in the folder's later place."""
    copy_pages(installed("web"), folder / "web")
    if mock.kind_of_value(json.loads(plan.document)) is mock.Kind.MOCK:
        for page in (folder / "web").glob("*.html"):
            page.write_text(mock.marked_page(page.read_text(encoding="utf-8")), encoding="utf-8")
    shutil.copy(installed("schemas/openapi.json"), folder / "openapi.json")
    for name in ("nginx.conf", "clock-auction.nft"):
        text = installed(f"services/{name}").read_text(encoding="utf-8")
        text = re.sub(rf"\b{USUAL_PORT}\b", str(plan.port), text)
        text = re.sub(r"\bauction-nginx\b", plan.worker, text)
        text = text.replace(USUAL_PLACE, str(place))
        (folder / name).write_text(text, encoding="utf-8")


def make_folders(folder: pathlib.Path) -> None:
    """Makes the folders, with modes that do not depend on the umask."""
    group = -1
    if os.geteuid() == 0:
        name = group_of_workers(folder / "nginx.conf")
        try:
            group = grp.getgrnam(name).gr_gid
        except KeyError:
            words = f"adduser --system --group --no-create-home {name}"
            raise FolderFault(f"there is no group {name}: {words}") from None
    for name, mode, is_of_workers in FOLDERS:
        path = folder / name
        path.mkdir()
        if is_of_workers:
            os.chown(path, -1, group)
        path.chmod(mode)
    for name in LOGS:
        (folder / "log" / name).touch(PRIVATE)
    if group != -1:
        # The count of links of receipts/ and the length of log/access.log show who has bid.
        os.chown(folder, -1, group)
        folder.chmod(0o750)


def usual_journal(folder: pathlib.Path) -> str:
    """The journal of a folder, if no other is given: the unit's, or one in the folder."""
    return JOURNAL_OF_UNIT if str(folder.absolute()) == USUAL_PLACE else "auction.journal"


def write_files(folder: pathlib.Path, plan: Plan) -> None:
    """Writes what follows from the set-up."""
    value = json.loads(plan.document)
    is_mock = mock.kind_of_value(value) is mock.Kind.MOCK
    operator = value["operator"]
    second = (mock.PREFIX if is_mock else "") + secrets.token_hex(16)
    settings = {
        "url": "http://127.0.0.1:8106",
        "setup": "setup.json",
        "token": "operator.token",
        "journal": plan.journal,
    }
    files = {
        "setup.json": plan.document.decode(),
        "operator.token": f"{operator}\n",
        "operator.head": f"authorization: Bearer {operator}\n",
        "operator.map": f'"Bearer {operator}" operator;\n',
        "second.token": f"{second}\n",
        "desk.map": f'"Bearer {second}" second;\n',
        "bidders.map": maps.bidders_map(value),
        "sheet.conf": maps.sheet_conf(value),
        "conductor.json": json.dumps(settings, indent=1) + "\n",
    }
    for name, text in files.items():
        write_private(folder / name, text.encode())
    link_journal(folder, folder / plan.journal)
    if plan.names is not None:
        (folder / "public" / "names.json").write_text(plan.names, encoding="utf-8")
    places = commitment.Places(folder / "kept", folder / "public")
    commitment.make(places, Setup.read(folder / "setup.json"), plan.has_ties)


def link_journal(folder: pathlib.Path, journal: pathlib.Path) -> None:
    """Makes a link to a journal elsewhere, so that commands can name it in the folder."""
    link = folder / "auction.journal"
    if journal != link and not link.is_symlink():
        link.symlink_to(journal)


def write_private(path: pathlib.Path, content: bytes) -> None:
    """Writes a file that only its owner reads."""
    with open(path, "wb", opener=lambda name, flags: os.open(name, flags, PRIVATE)) as file:
        file.write(content)


def write_certificate(folder: pathlib.Path, plan: Plan) -> None:
    """Copies the certificate and its key, or makes one for a trial."""
    if plan.certificate:
        chain, key = plan.certificate.chain.read_bytes(), plan.certificate.key.read_bytes()
    else:
        chain, key = certificate_for_a_trial(plan.host)
    (folder / "cert.pem").write_bytes(chain)
    write_private(folder / "key.pem", key)


def certificate_for_a_trial(host: str) -> tuple[bytes, bytes]:
    """A certificate for a host and this machine that no browser trusts, and its key."""
    key = ec.generate_private_key(ec.SECP256R1())
    name = x509.Name([x509.NameAttribute(NameOID.COMMON_NAME, host)])
    local = ipaddress.ip_address("127.0.0.1")
    hosts = [x509.DNSName(each) for each in sorted({host, "localhost"})]
    now = datetime.datetime.now(datetime.timezone.utc)
    certificate = (
        x509.CertificateBuilder()
        .subject_name(name)
        .issuer_name(name)
        .public_key(key.public_key())
        .serial_number(x509.random_serial_number())
        .not_valid_before(now - datetime.timedelta(minutes=5))
        .not_valid_after(now + datetime.timedelta(days=DAYS_OF_A_TRIAL))
        .add_extension(x509.SubjectAlternativeName([*hosts, x509.IPAddress(local)]), critical=False)
        .sign(key, hashes.SHA256())
    )
    pem, none = serialization.Encoding.PEM, serialization.NoEncryption()
    secret = key.private_bytes(pem, serialization.PrivateFormat.PKCS8, none)
    return certificate.public_bytes(pem), secret
