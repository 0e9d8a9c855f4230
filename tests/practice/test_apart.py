"""A hosted practice shares nothing with a real auction."""
import pathlib

import pytest

from auction.practice.apart import Around, shared
from tests.lib.paths import EXAMPLES, auction

pytestmark = pytest.mark.early

APART = Around("practice", False, False, range(8300, 8333), False)


def test_a_host_of_its_own_begins() -> None:
    assert shared(APART) is None


@pytest.mark.parametrize(
    ("changed", "words"),
    [
        pytest.param({"is_root": True}, "not as root", id="root"),
        pytest.param({"user": "auction-server"}, "a user of the real auction", id="server"),
        pytest.param({"user": "auction-nginx"}, "a user of the real auction", id="nginx"),
        pytest.param({"enters": True}, "can enter /srv/auction", id="folder"),
        pytest.param({"ports": range(8443, 8450)}, "port 8443", id="its-port"),
        pytest.param({"ports": range(8090, 8110)}, "port 8105", id="a-games-port"),
        pytest.param({"has_tokens": True}, "the tokens of an auction", id="tokens"),
    ],
)
def test_what_is_shared_is_named(changed: dict[str, object], words: str) -> None:
    found = shared(APART._replace(**changed))
    assert found and words in found


@pytest.mark.root
def test_root_hosts_no_practice(tmp_path: pathlib.Path) -> None:
    done = auction("practice", "--host", "--folder", tmp_path / "new")
    assert done.returncode == 1 and "not as root" in done.stderr
    assert not (tmp_path / "new").exists()


@pytest.mark.parametrize(
    ("words", "reason"),
    [
        pytest.param(("--key", "key.pem"), "both --certificate and --key", id="key-only"),
        pytest.param(("--games", "0"), "from 1 to 500", id="no-games"),
        pytest.param(("--you", "X"), "--you NAME needs --setup FILE", id="you"),
        pytest.param(
            ("--setup", EXAMPLES / "one_product.json", "--products", "2"), "leave out", id="both"
        ),
    ],
)
def test_a_contradiction_is_refused_in_one_line(words: tuple[object, ...], reason: str) -> None:
    done = auction("practice", "--host", *words)
    assert done.returncode != 0 and reason in done.stderr
    assert "Traceback" not in done.stderr
