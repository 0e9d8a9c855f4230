"""The conductor asks at the bidders' port as bidders do: with the certificate's name."""
import http.server
import pathlib
import ssl
import subprocess
import threading
from collections.abc import Iterator

import pytest

from auction.conductor.server import BiddersPort
from tests.lib.conducted import small_setup
from tests.lib.ports import free_port
from tests.lib.site import NAMES, OPENSSL, running

pytestmark = pytest.mark.needs("openssl")


class Pages(http.server.BaseHTTPRequestHandler):
    """Answers each page with the status of its server, and a body."""

    status, body = 200, b""

    def do_GET(self) -> None:
        self.send_response(self.status)
        self.end_headers()
        self.wfile.write(self.body)

    def log_message(self, *_: object) -> None:
        """Says nothing."""


class Failing(Pages):
    status = 502


class TooOften(Pages):
    status, body = 429, b'{"code":"too_often","status":429}'


class Withheld(Pages):
    status, body = 503, b'{"code":"closing","status":503}'


class Unready(Pages):
    status, body = 503, b'{"code":"memory","status":503}'


def certificate(folder: pathlib.Path) -> pathlib.Path:
    """The certificate of localhost, with its key in the same file."""
    command = [*OPENSSL.split(), "-addext", NAMES, "-keyout", "key.pem", "-out", "cert.pem"]
    subprocess.run(command, check=True, capture_output=True, cwd=folder)
    both = folder / "both.pem"
    both.write_text((folder / "cert.pem").read_text() + (folder / "key.pem").read_text())
    return both


def served(folder: pathlib.Path, pages: type[Pages]) -> Iterator[int]:
    """Serves over TLS at a port until this ends."""
    context = ssl.SSLContext(ssl.PROTOCOL_TLS_SERVER)
    context.load_cert_chain(certificate(folder))
    server = http.server.ThreadingHTTPServer(("127.0.0.1", free_port()), pages)
    server.socket = context.wrap_socket(server.socket, server_side=True)
    threading.Thread(target=server.serve_forever, daemon=True).start()
    yield server.server_port
    server.shutdown()
    server.server_close()


@pytest.fixture
def port(tmp_path: pathlib.Path) -> Iterator[int]:
    yield from served(tmp_path, Pages)


def answers(port: int, authority: pathlib.Path | str, name: str = "localhost") -> bool:
    return BiddersPort(f"https://{name}:{port}", str(authority)).answers()


def test_a_page_with_the_right_certificate(port: int, tmp_path: pathlib.Path) -> None:
    assert answers(port, tmp_path / "cert.pem")


def test_a_certificate_that_nobody_trusts(port: int) -> None:
    assert not answers(port, "")


def test_a_certificate_for_another_name(port: int, tmp_path: pathlib.Path) -> None:
    assert not answers(port, tmp_path / "cert.pem", "127.0.0.2")


@pytest.mark.parametrize(
    ("pages", "is_there"), [(TooOften, True), (Withheld, True), (Unready, False), (Failing, False)]
)
def test_a_proxy_that_withholds_a_page_is_there(
    tmp_path: pathlib.Path, pages: type[Pages], is_there: bool
) -> None:
    """A window may open again while the curtain of its end is still drawn."""
    for port in served(tmp_path, pages):
        assert answers(port, tmp_path / "cert.pem") == is_there


@pytest.mark.needs("nginx")
def test_a_lost_inner_door_through_which_no_sheet_comes(program: pathlib.Path) -> None:
    """The public files are there all the same."""
    with running(program, small_setup()) as site:
        authority = site.folder / "cert.pem"
        assert answers(site.outside, authority)
        (site.folder / "inner/door.sock").unlink()
        assert not answers(site.outside, authority)


def test_a_port_at_which_nobody_listens(port: int, tmp_path: pathlib.Path) -> None:
    assert not answers(free_port(), tmp_path / "cert.pem")
