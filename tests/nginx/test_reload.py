"""What nginx reads again on a reload: tokens of a bidder's persons, and the longest sheet."""
import json
import signal
from collections.abc import Callable, Iterator

import pytest

from tests.lib.paths import auction
from tests.lib.site import Site
from tests.lib.tls import Client
from tests.lib.waiting import wait_for
from tests.nginx.recorder import PRIVATE, Recorder
from tests.nginx.requests import Bidder, get, head, log_of, put
from tests.nginx.running import SETUP

NewBidder = Callable[[], Bidder]
LOOK = 0.7  # seconds between two requests: a bidder may ask twice a second
FIRST, SECOND = "FIRSTPERSON00001", "SECONDPERSON0002"


@pytest.fixture
def reload(site: Site) -> Iterator[Callable[..., None]]:
    """Writes a file and has nginx read it. At the end, the files are as they were."""
    names = ("bidders.map", "persons.map", "persons.map~", "by.map", "sheet.conf")
    before = {
        name: (site.folder / name).read_text() for name in names if (site.folder / name).exists()
    }

    def write(name: str, *lines: str) -> None:
        (site.folder / name).write_text("".join(f"{line}\n" for line in lines))
        site.nginx.send_signal(signal.SIGHUP)

    yield write
    for name in names:
        (site.folder / name).unlink(missing_ok=True)
    for name, text in before.items():
        (site.folder / name).write_text(text)
    site.nginx.send_signal(signal.SIGHUP)


def whose(site: Site, token: str) -> str:
    """The token that nginx hands on instead of this one, or the status of its refusal."""
    reply = get(site, "/v1/me", token)
    return reply.json["private"].removeprefix(PRIVATE) if reply.status == 200 else str(reply.status)


@pytest.fixture
def persons(site: Site, recorder: Recorder, bidder: Bidder, reload: Callable[..., None]) -> str:
    """The file bidders.map without a second person, whose token is known too."""
    text = (site.folder / "bidders.map").read_text()
    text = text.replace(f"Bearer {bidder.token}", f"Bearer {FIRST}")
    both = [f'"Bearer {person}" "Bearer {bidder.token}";' for person in (FIRST, SECOND)]
    reload("persons.map", *both)
    reload("by.map", f'"Bearer {FIRST}" "alice";', f'"Bearer {SECOND}" "bob";')
    reload("bidders.map", text, f'"Bearer {SECOND}" "{bidder.name}";')
    (site.folder / "persons.map~").write_text("\n".join(both))  # as an editor leaves it
    wait_for("a person's token is known", lambda: whose(site, SECOND) == bidder.token, 20, LOOK)
    return text


def test_two_persons_of_a_bidder_have_tokens_instead_of_its_own(
    persons: str, site: Site, bidder: Bidder
) -> None:
    found = [whose(site, token) for token in (bidder.token, FIRST, SECOND)]
    assert found == ["401", bidder.token, bidder.token]


def test_a_sheet_names_the_person_who_sent_it(persons: str, site: Site, recorder: Recorder) -> None:
    for token, name in ((FIRST, "alice"), (SECOND, "bob")):
        recorder.reset()
        assert put(site, token, b"{}").status == 200
        assert f"By: {name}" in recorder.seen[0].head.split("\r\n")


def test_the_log_names_the_person(persons: str, site: Site, bidder: Bidder) -> None:
    whose(site, SECOND)
    line = f'"bidder":"{bidder.name}","by":"bob",'
    wait_for("the line", lambda: any(line in one for one in log_of(site)), 20)


def test_a_sheet_that_comes_whole_after_its_token_was_taken_back_is_refused(
    persons: str, site: Site, recorder: Recorder, reload: Callable[..., None]
) -> None:
    """Its head came before. The old worker of nginx waits for its body for five minutes."""
    client, length, sent = Client(site.outside), 200, 0
    client.send(head("PUT", "/v1/me/bids", SECOND, f"content-length: {length}"))
    reload("bidders.map", persons)

    def is_taken_back() -> bool:
        nonlocal sent
        client.send(b" ")  # nginx waits ten seconds for the next byte
        sent += 1
        return whose(site, SECOND) == "401"

    wait_for("it is taken back", is_taken_back, 60, LOOK)
    recorder.reset()
    client.send(b" " * (length - sent))
    reply = client.reply()
    assert (reply.status, reply.json["code"]) == (401, "token")
    assert not recorder.seen


def test_a_persons_token_is_taken_back_and_no_other(
    persons: str, site: Site, bidder: Bidder, new_bidder: NewBidder, reload: Callable[..., None]
) -> None:
    reload("bidders.map", persons)
    wait_for("it is taken back", lambda: whose(site, SECOND) == "401", 20, LOOK)
    other = new_bidder()
    assert [whose(site, token) for token in (other.token, FIRST)] == [other.token, bidder.token]


def test_with_sheet_conf_a_sheet_is_as_long_as_the_set_up_needs(
    site: Site, recorder: Recorder, new_bidder: NewBidder, reload: Callable[..., None]
) -> None:
    longest = site.bound_sheets()
    site.nginx.send_signal(signal.SIGHUP)
    token = new_bidder().token  # each look may count as a large sheet
    too_long = b" " * (longest + 1)
    wait_for("a longer one is refused", lambda: put(site, token, too_long).status == 413, 20, 0.2)
    assert put(site, new_bidder().token, b" " * longest).status == 200


def test_two_tokens_that_differ_only_by_case_are_refused_before_nginx_reads_them(
    site: Site, bidder: Bidder
) -> None:
    bidders = [
        {"name": name, "token": token, "eligibility": 1}
        for name, token in (("a", bidder.token), ("b", bidder.token.lower()))
    ]
    file = site.folder / "twice.json"
    file.write_text(json.dumps({**SETUP, "bidders": bidders}))
    ran = auction("maps", file)
    assert (ran.returncode, ran.stdout) == (1, "")
    assert "differ by case" in ran.stderr
