"""The pages of a hosted practice that are not a game's: where it begins, and where it has ended."""
import html

from auction.practice.game import TOKEN
from auction.practice.places import Limits, Verdict, Why

PAGE = """<!doctype html>
<html lang="en">
<head>
<meta charset="utf-8">
<meta name="viewport" content="width=device-width, initial-scale=1">
<meta name="referrer" content="no-referrer">
<title>Practice · clock auction</title>
<link rel="icon" href="/icon.svg" type="image/svg+xml">
<link rel="stylesheet" href="/style.css">
</head>
<body>
<header><h1>Clock auction · practice</h1></header>
<main><section class="card">
{inside}
</section></main>
</body>
</html>
"""
FORM = """<form method="post" action="/games"><p class="bar"><button class="first">Begin a game
</button></p></form>"""


def page(*lines: str) -> bytes:
    """A page with some lines of HTML."""
    return PAGE.format(inside="\n".join(lines)).encode()


def welcome(taken: int, limits: Limits) -> bytes:
    """The page at the host's address."""
    return page(
        "<h2>Practice an auction</h2>",
        "<p>You play against scripted rivals, in a game of your own. Nothing is sold, and nothing "
        "here is of the real auction: do not enter its token.</p>",
        f"<p>{taken} of {limits.games} places are taken.</p>",
        FORM,
    )


def begun(limits: Limits) -> bytes:
    """The page of a game that has begun."""
    return page(
        "<h2>Your game is ready</h2>",
        f'<p>1. Note the token: <strong id="token">{TOKEN}</strong></p>',
        '<p>2. <a id="open" href="./">Open your page</a>, and enter with the token. The table says '
        "what each block is worth to you. Win blocks for less.</p>",
        f"<p>The game ends {limits.longest / 60:.0f} minutes after it began, "
        f"{limits.idle / 60:.0f} minutes after your last bids, or {limits.left / 60:.0f} minutes "
        "after you close its page.</p>",
    )


def refused(verdict: Verdict, wait: float | None) -> bytes:
    """The page for a person who gets no place. `wait` has the seconds until one is free."""
    when = "" if wait is None else f" The next place is free in {max(1, wait / 60):.0f} minutes."
    return page(
        "<h2>No game has begun</h2>",
        f"<p>{html.escape(verdict.value.capitalize())}.{when} Others may end sooner: try again."
        "</p>",
        FORM,
    )


def failed() -> bytes:
    """The page for a person whose game did not start."""
    return page("<h2>The game did not start</h2>", "<p>Try again, or call the help desk.</p>", FORM)


def ended(why: Why | None) -> bytes:
    """The page of a game that has ended, or was never there."""
    reason = f"It has ended, since {why.value}." if why else "No game has this address."
    return page("<h2>There is no such game</h2>", f"<p>{html.escape(reason)}</p>", FORM)
