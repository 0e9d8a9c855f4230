"""A person ends the window of a round early, at the desk."""
from auction.desk.acts import Given, close_early
from tests.lib.conducted import ConductedAuction


def end(
    auction: ConductedAuction, number: int = 1, increment: int = 20, without_sheets: bool = False
) -> None:
    """Ends the window of a round, to close it with this increment."""
    given = Given(increments=(increment,), without_sheets=without_sheets)
    close_early(auction.context(), number, given)
