"""Whether this machine may serve, and how far its standby is."""
import json
import time

from auction.standby import mark

from .auction import Auction
from .findings import Check, ensure

STALE, AHEAD = 15, 1  # seconds


def standby(auction: Auction) -> str:
    found = mark.Mark.read(auction.folder)
    ensure(found is None, mark.WORDS.get(found.role, mark.NAME) if found else "")
    report = auction.folder / "state/standby.json"
    if not report.exists():
        return "no other machine stands by (`auction standby`)"
    passed = json.loads(report.read_bytes())
    host, age = passed["host"], time.time() - passed["time"]
    ensure(age < STALE, f"{host} has got nothing for {age:.0f} s: does `auction standby` run?")
    ahead = f"the clock of {host} differs by {passed['ahead']:+.0f} s: set both by NTP"
    ensure(abs(passed["ahead"]) <= AHEAD, ahead)
    return f"{host} has all up to {age:.0f} s ago"


CHECKS = [Check("standby", standby)]
