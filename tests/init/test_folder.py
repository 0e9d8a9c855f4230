"""`auction init` makes an auction's folder whole, or not at all."""
import json
import os
import pathlib
import shutil
import stat
import subprocess
import sys
import tempfile
from collections.abc import Iterator

import pytest
from cryptography import x509

from auction.conductor.chain import Chain
from auction.folder import link_journal, usual_journal
from auction.formats.setup import Setup
from auction.formats.ties import Commitment
from tests.lib.paths import AUCTION, EXAMPLES, PATHS, TOP, auction

SETUP = EXAMPLES / "two_products.json"
WORKER = "www-data"  # a user of Debian, with a group of the same name


@pytest.fixture(scope="module")
def folder(openapi: pathlib.Path) -> Iterator[pathlib.Path]:
    """A folder that the command has made of the example's set-up. Tests only read it."""
    with tempfile.TemporaryDirectory(prefix="auction-") as name:
        made = pathlib.Path(name) / "auction"
        words = ("--setup", SETUP, "--host", "auction.example", "--user", WORKER)
        done = auction("init", made, *words)
        assert done.returncode == 0, done.stderr
        yield made


@pytest.mark.parametrize(
    ("name", "mode"),
    [
        ("setup.json", 0o600),
        ("operator.token", 0o600),
        ("operator.head", 0o600),
        ("operator.map", 0o600),
        ("second.token", 0o600),
        ("desk.map", 0o600),
        ("bidders.map", 0o600),
        ("sheet.conf", 0o600),
        ("conductor.json", 0o600),
        ("key.pem", 0o600),
        ("kept/chain.json", 0o600),
        ("kept/receipts.pem", 0o600),
        ("log/access.log", 0o600),
        ("cert.pem", 0o644),
        ("nginx.conf", 0o644),
        ("clock-auction.nft", 0o644),
        ("openapi.json", 0o644),
        ("public/commitment.json", 0o644),
        ("web/index.html", 0o644),
        ("tmp", 0o755),
        ("log", 0o755),
        ("gate", 0o755),
        ("public", 0o755),
        ("public/rounds", 0o755),
        ("kept", 0o700),
        ("state", 0o700),
        ("inner", 0o710),
        ("operator", 0o2750),
        ("receipts", 0o2750),
    ],
)
def test_each_file_and_folder_has_its_mode(folder: pathlib.Path, name: str, mode: int) -> None:
    found = stat.S_IMODE((folder / name).stat().st_mode)
    assert oct(found) == oct(mode)


@pytest.mark.root
@pytest.mark.parametrize("name", ["inner", "operator", "receipts"])
def test_folders_of_nginx_belong_to_the_group_of_its_workers(
    folder: pathlib.Path, name: str
) -> None:
    assert (folder / name).group() == WORKER


def test_no_sheet_is_taken_yet(folder: pathlib.Path) -> None:
    assert not list((folder / "gate").iterdir())


def test_commitment_is_of_the_set_up(folder: pathlib.Path) -> None:
    found = Commitment.read(folder / "public/commitment.json")
    assert found.auction == Setup.read(SETUP).digest
    assert found.chain is not None


def test_without_ties_the_commitment_has_no_chain(open_folder: pathlib.Path) -> None:
    made = open_folder / "auction"
    done = auction("init", made, "--setup", SETUP, "--user", WORKER, "--no-ties")
    assert done.returncode == 0, done.stderr
    assert Commitment.read(made / "public/commitment.json").chain is None


def test_certificate_is_for_the_host_and_this_machine(folder: pathlib.Path) -> None:
    found = x509.load_pem_x509_certificate((folder / "cert.pem").read_bytes())
    names = found.extensions.get_extension_for_class(x509.SubjectAlternativeName).value
    assert names.get_values_for_type(x509.DNSName) == ["auction.example", "localhost"]


@pytest.mark.root
@pytest.mark.needs("nginx")
def test_nginx_accepts_its_configuration(folder: pathlib.Path) -> None:
    nginx = shutil.which("nginx", path=PATHS) or "nginx"
    command = [nginx, "-t", "-p", folder, "-c", "nginx.conf"]
    done = subprocess.run(command, cwd=folder, capture_output=True, text=True, timeout=30)
    assert done.returncode == 0, done.stderr


def test_another_port_is_in_both_configurations(open_folder: pathlib.Path) -> None:
    made = open_folder / "auction"
    words = ("--setup", SETUP, "--user", WORKER, "--port", "443")
    assert auction("init", made, *words).returncode == 0
    for name in ("nginx.conf", "clock-auction.nft"):
        text = (made / name).read_text()
        assert "443" in text and "8443" not in text, name


def test_settings_name_the_journal(open_folder: pathlib.Path) -> None:
    made = open_folder / "auction"
    words = ("--setup", SETUP, "--user", WORKER, "--journal", "/var/lib/a.journal")
    assert auction("init", made, *words).returncode == 0
    assert json.loads((made / "conductor.json").read_text())["journal"] == "/var/lib/a.journal"
    assert (made / "auction.journal").readlink() == pathlib.Path("/var/lib/a.journal")


@pytest.mark.parametrize(
    ("name", "wanted"),
    [
        pytest.param(
            "/srv/auction", "/var/lib/private/clock_auction/auction.journal", id="of-the-unit"
        ),
        pytest.param("/srv/another", "auction.journal", id="another-folder"),
    ],
)
def test_the_folder_of_the_units_has_their_journal(name: str, wanted: str) -> None:
    assert usual_journal(pathlib.Path(name)) == wanted


@pytest.mark.root
def test_no_other_user_can_enter_the_folder(folder: pathlib.Path) -> None:
    """Lengths of the log and counts of links in it show who has bid."""
    assert (stat.S_IMODE(folder.stat().st_mode), folder.group()) == (0o750, WORKER)


def files_below(folder: pathlib.Path) -> list[str]:
    return sorted(str(path.relative_to(folder)) for path in folder.rglob("*"))


@pytest.mark.parametrize(
    ("words", "reason"),
    [
        pytest.param((), "give --setup, or --products and --bidders", id="no-set-up"),
        pytest.param(("--setup", "none.json"), "No such file", id="missing-set-up"),
        pytest.param(("--setup", TOP / "README.md"), "setup_not_json", id="no-json"),
        pytest.param(("--setup", SETUP, "--user", "nobody-here"), "no group", id="no-group"),
        pytest.param(("--setup", SETUP, "--key", "k.pem"), "--certificate", id="key-only"),
        pytest.param(("--setup", SETUP, "--products", "p.csv"), "give --setup", id="both-kinds"),
    ],
)
def test_a_refusal_says_why_and_leaves_nothing(
    open_folder: pathlib.Path, words: tuple[object, ...], reason: str
) -> None:
    if "nobody-here" not in words:
        words = (*words, "--user", WORKER)
    done = auction("init", open_folder / "auction", *words)
    assert done.returncode == 1
    assert done.stderr.startswith("auction init: ") and reason in done.stderr
    assert not files_below(open_folder)


def test_a_folder_that_is_there_stays_as_it_is(folder: pathlib.Path) -> None:
    before = {name: (folder / name).stat().st_mtime_ns for name in files_below(folder)}
    done = auction("init", folder, "--setup", SETUP, "--user", WORKER)
    assert done.returncode == 1 and "is there already" in done.stderr
    assert {name: (folder / name).stat().st_mtime_ns for name in files_below(folder)} == before


def test_of_calls_at_once_only_one_makes_the_folder(open_folder: pathlib.Path) -> None:
    made = open_folder / "auction"
    words = [sys.executable, AUCTION, "init", made, "--setup", SETUP, "--user", WORKER]
    calls = [
        subprocess.Popen(words, stdout=subprocess.DEVNULL, stderr=subprocess.PIPE, text=True)
        for _ in range(4)
    ]
    ended = [(call.communicate(timeout=60)[1], call.returncode) for call in calls]
    refused = [said for said, status in ended if status]
    assert len(refused) == 3, ended
    assert all("is there already, and is not empty" in said for said in refused), refused
    chain = Chain.read(made / "kept/chain.json", Setup.read(made / "setup.json"))
    assert Commitment.read(made / "public/commitment.json").chain == chain.committed()
    assert os.listdir(open_folder) == ["auction"]


def test_the_link_to_the_journal_is_made_once_and_never_over_a_journal(
    tmp_path: pathlib.Path,
) -> None:
    for _ in range(2):
        link_journal(tmp_path, tmp_path / "elsewhere")
    assert (tmp_path / "auction.journal").readlink() == tmp_path / "elsewhere"
    own = tmp_path / "own"
    own.mkdir()
    link_journal(own, own / "auction.journal")
    assert not list(own.iterdir())
