"""`auction init` draws a token for the second person at the desk."""
import json
import pathlib
import re

import pytest

from auction.desk.people import People
from tests.lib.paths import EXAMPLES, auction

SETUP = EXAMPLES / "two_products.json"


@pytest.mark.parametrize("is_mock", [False, True], ids=["real", "mock"])
def test_a_second_person_has_a_token_of_its_own(
    openapi: pathlib.Path, open_folder: pathlib.Path, is_mock: bool
) -> None:
    """In a mock auction it begins with MOCK, as all tokens do, and in a real one it does not."""
    made = open_folder / "auction"
    more = ["--mock"] if is_mock else []
    done = auction("init", made, "--setup", SETUP, "--user", "www-data", *more)
    assert done.returncode == 0, done.stderr
    second = (made / "second.token").read_text().strip()
    assert re.fullmatch(("MOCK" if is_mock else "") + "[0-9a-f]{32}", second)
    operator = (made / "operator.token").read_text().strip()
    people = People.read(operator, made / "desk.map")
    assert people.of(f"Bearer {second}") == "second"
    assert people.of(f"Bearer {operator}") == "operator"
    assert second not in json.dumps(json.loads((made / "setup.json").read_text()))
