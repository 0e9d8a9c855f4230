"""The bids of a bidder that follows its values: those of examples/bidder.py."""
import functools
import importlib.util
import pathlib
import types
from typing import Any

from auction.installed import installed

Prices = list[tuple[int, int]]  # for each product, its start-of-round price and its clock price
Limits = dict[str, list[int]]  # for each product, what each block is worth, never rising


@functools.cache
def example() -> types.ModuleType:
    """The example, which is one file that programs of bidders are made from."""
    path = installed("examples/bidder.py")
    spec = importlib.util.spec_from_file_location("bidder", path)
    assert spec and spec.loader
    module = importlib.util.module_from_spec(spec)
    spec.loader.exec_module(module)
    return module


def bids_of(
    limits: Limits,
    products: list[dict[str, Any]],
    prices: Prices,
    demands: list[int],
    number: int,
) -> list[dict[str, int]]:
    """The bids of a round. `demands` has the processed demands."""
    bids: list[dict[str, int]] = example().bids_of(limits, products, prices, demands, number)
    return bids


def limits_of(path: pathlib.Path) -> Limits:
    """The values in a file. Ends the program if they are wrong."""
    limits: Limits = example().limits_of(path)
    return limits
