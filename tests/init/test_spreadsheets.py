"""`auction init` makes a set-up of two spreadsheets, with fresh tokens and a letter for each
bidder.
"""
import json
import pathlib
import stat

import pytest

from auction.recount.formats import setup_in
from auction.spreadsheets import SpreadsheetFault, setup_of
from tests.lib.paths import auction

PRODUCTS = """name,units,supply,cap,opening,title
LA-1,5,10,4,"1,000","Los Angeles, block 1"
NY-1,7,12,,$2000,
"""
BIDDERS = """name,eligibility,title
North,100,North Telephone Company
South,50,
"""


def files(
    folder: pathlib.Path, products: str = PRODUCTS, bidders: str = BIDDERS
) -> list[pathlib.Path]:
    paths = [folder / "products.csv", folder / "bidders.csv"]
    for path, text in zip(paths, (products, bidders)):
        path.write_text(text, encoding="utf-8")
    return paths


def value_of(
    folder: pathlib.Path, products: str = PRODUCTS, bidders: str = BIDDERS
) -> dict[str, list[dict[str, object]]]:
    document, _ = setup_of(*files(folder, products, bidders), "An auction")
    value: dict[str, list[dict[str, object]]] = json.loads(document)
    return value


def test_products_have_the_numbers_of_their_rows(tmp_path: pathlib.Path) -> None:
    assert value_of(tmp_path)["products"] == [
        {"name": "LA-1", "units": 5, "supply": 10, "cap": 4, "opening": 1000},
        {"name": "NY-1", "units": 7, "supply": 12, "cap": 12, "opening": 2000},
    ]


def test_each_token_is_drawn(tmp_path: pathlib.Path) -> None:
    first, second = (value_of(tmp_path) for _ in range(2))
    drawn = [row["token"] for value in (first, second) for row in value["bidders"]]
    drawn += [first["operator"], second["operator"]]
    assert len(set(map(str, drawn))) == 6
    assert all(len(str(token)) == 32 for token in drawn)


def test_a_granule_makes_a_set_up_of_version_2(tmp_path: pathlib.Path) -> None:
    products = "name,units,supply,opening,granule\nA,1,2,100,10\nB,1,2,100,\n"
    value = value_of(tmp_path, products)
    assert (value["version"], value["limit"]) == (2, 100)
    assert [row["granule"] for row in value["products"]] == [10, 1]


def test_long_names_are_not_in_the_set_up(tmp_path: pathlib.Path) -> None:
    document, names = setup_of(*files(tmp_path), "Auction 1")
    assert b"Los Angeles" not in document
    assert names.title == "Auction 1"
    assert names.products == {"LA-1": "Los Angeles, block 1"}
    assert names.bidders == {"North": "North Telephone Company"}


def test_a_set_up_of_spreadsheets_is_one_that_the_rules_accept(tmp_path: pathlib.Path) -> None:
    document, _ = setup_of(*files(tmp_path), "An auction", 75, 120)
    found = setup_in(document)
    assert (found.requirement, found.limit) == (75, 120)


@pytest.mark.parametrize(
    ("products", "bidders", "words"),
    [
        pytest.param(
            "name,units\nA,1\n", BIDDERS, "products.csv:1: the column supply", id="column"
        ),
        pytest.param(
            "name,units,supply,opening,color\n", BIDDERS, "products.csv:1: no column", id="strange"
        ),
        pytest.param(
            "name,units,supply,opening\nA,1,2,x\n",
            BIDDERS,
            "products.csv:2: opening is 'x'",
            id="x",
        ),
        pytest.param(
            "name,units,supply,opening\nA,1,-2,5\n",
            BIDDERS,
            "products.csv:2: supply",
            id="negative",
        ),
        pytest.param(
            "name,units,supply,opening\nA,1,2,5\nB,1,0,5\n",
            BIDDERS,
            "products.csv:3: supply is out of range",
            id="range",
        ),
        pytest.param(
            "name,units,supply,opening\nA B,1,2,5\n",
            BIDDERS,
            "products.csv:2: name is out of range",
            id="short-name",
        ),
        pytest.param(
            PRODUCTS,
            "name,eligibility\nN N,5\n",
            "bidders.csv:2: name is out of range",
            id="bidder",
        ),
        pytest.param(
            PRODUCTS, "name,eligibility\n,5\n", "bidders.csv:2: name is empty", id="empty"
        ),
        pytest.param(
            "name,units,supply,opening\nA,1,2,5\nA,1,2,5\n", BIDDERS, "a name twice", id="twice"
        ),
    ],
)
def test_a_fault_names_its_file_and_line(
    tmp_path: pathlib.Path, products: str, bidders: str, words: str
) -> None:
    with pytest.raises(SpreadsheetFault, match=words.replace(".", r"\.")):
        setup_of(*files(tmp_path, products, bidders), "An auction")


@pytest.fixture(scope="module")
def made(openapi: pathlib.Path, tmp_path_factory: pytest.TempPathFactory) -> pathlib.Path:
    """A folder that the command has made of two spreadsheets. Tests only read it."""
    open_folder = tmp_path_factory.mktemp("init")
    products, bidders = files(open_folder)
    words = (
        "--products",
        products,
        "--bidders",
        bidders,
        "--title",
        "Auction 1",
        "--host",
        "a.example",
    )
    done = auction(
        "init", open_folder / "auction", *words, "--help-desk", "555 0100", "--user", "www-data"
    )
    assert done.returncode == 0, done.stderr
    return open_folder / "auction"


def test_each_bidder_gets_a_letter_with_its_token_only(made: pathlib.Path) -> None:
    bidders = json.loads((made / "setup.json").read_text())["bidders"]
    tokens = {row["name"]: row["token"] for row in bidders}
    for name, token in tokens.items():
        text = (made / "letters" / f"{name}.txt").read_text()
        assert [other for other in tokens.values() if other in text] == [token]


def test_a_letter_says_where_to_bid_and_whom_to_call(made: pathlib.Path) -> None:
    text = (made / "letters/North.txt").read_text()
    for words in ("North Telephone Company (North)", "https://a.example:8443/", "555 0100"):
        assert words in text


def test_only_the_operator_reads_letters(made: pathlib.Path) -> None:
    modes = [stat.S_IMODE(path.stat().st_mode) for path in (made / "letters").iterdir()]
    assert stat.S_IMODE((made / "letters").stat().st_mode) == 0o700
    assert set(modes) == {0o600}


def test_everyone_can_see_long_names(made: pathlib.Path) -> None:
    names = json.loads((made / "public/names.json").read_text())
    assert names["title"] == "Auction 1"
    assert names["products"] == {"LA-1": "Los Angeles, block 1"}
