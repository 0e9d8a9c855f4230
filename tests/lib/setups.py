"""Set-up documents, as values of JSON."""
from typing import Any

OPERATOR = "OPERATOROPERATOR"


def product(
    name: str,
    supply: int = 1,
    opening: int = 100,
    *,
    units: int = 1,
    cap: int | None = None,
    granule: int | None = None,
) -> dict[str, Any]:
    """A product. Its cap is its supply unless another is given. In version 2 it has a granule."""
    row = {"name": name, "units": units, "supply": supply, "cap": cap or supply, "opening": opening}
    return row if granule is None else {**row, "granule": granule}


def bidder(name: str, token: str, eligibility: int) -> dict[str, Any]:
    """A bidder."""
    return {"name": name, "token": token, "eligibility": eligibility}


def setup(
    products: list[dict[str, Any]],
    bidders: list[dict[str, Any]],
    requirement: int = 50,
    operator: str = OPERATOR,
    limit: int | None = None,
) -> dict[str, Any]:
    """A set-up of version 1, or of version 2 if it has an activity limit."""
    version = {"version": 1} if limit is None else {"version": 2, "limit": limit}
    return {
        **version,
        "requirement": requirement,
        "operator": operator,
        "products": products,
        "bidders": bidders,
    }
