"""What bidders and the operator do on their pages."""
import re

from tests.browser.auction import OPERATORS, Auction, X
from tests.browser.window import Window
from tests.lib.setups import OPERATOR


def enter(auction: Auction, window: Window, token: str = X) -> None:
    """Enters with a token, and waits until the page has the round."""
    window.open(auction.address(OPERATORS if token == OPERATOR else ""), token)
    window.until("the page has the round", lambda: "ound" in window.text("round"))
    window.until("the form for the token is gone", lambda: not window.is_seen("door"))


def ask_about(operator: Window) -> None:
    """Asks to close the round, again while the desk says that the last one is not published."""

    def is_asked() -> bool:
        if not operator.is_seen("question") and "not published yet" in operator.text("say"):
            operator.click("ask")
        return operator.is_seen("question")

    operator.click("ask")
    operator.until("a closing is asked about first", is_asked)


def close_round(operator: Window) -> None:
    """Closes the round by the operator's page, and says yes to the question."""
    ask_about(operator)
    confirm(operator)


def confirm(operator: Window) -> None:
    """Types the round's number, and says yes."""
    number = re.findall(r"\d+", operator.text("round"))[0]
    operator.at("field-typed").send_keys(number)
    operator.at("yes").click()


def totals(window: Window) -> dict[str, str]:
    """The totals of the bidder's page by name: value and note."""
    return {name: " · ".join(rest) for name, *rest in window.facts("sums")}
