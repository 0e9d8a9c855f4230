"""The tables of the played auction, calculated by hand from its sheets and the rules."""
import csv
import pathlib

# The one product is A, with a supply of 3 and an opening price of 100. Increments are 10 percent,
# the requirement 50.
BIDS = """\
round,bidder,product,bid_type,quantity,price,sheet,place,in_force
1,X,A,increase,2,100,1,0,yes
1,Y,A,increase,1,100,2,0,yes
1,Z,A,increase,1,100,3,0,yes
2,X,A,maintain,2,110,5,0,yes
2,Y,A,reduce,0,105,6,0,no
2,Z,A,maintain,1,110,7,0,yes
2,Y,A,maintain,1,110,8,0,yes
3,X,A,reduce,1,115,10,0,yes
3,Z,A,maintain,1,121,11,0,yes
3,Y,A,reduce,0,115,12,0,yes
"""
PRODUCTS = """\
round,product,supply,aggregate_demand,excess_demand,start_of_round_price,clock_price,posted_price,\
next_clock_price,increment
1,A,3,4,1,100,100,100,110,10
2,A,3,4,1,100,110,110,121,10
3,A,3,3,0,110,121,115,,10
"""
SHEETS = [
    *(["1", "1", "X", "1", "yes"], ["2", "1", "Y", "1", "yes"], ["3", "1", "Z", "1", "yes"]),
    *(["5", "2", "X", "1", "yes"], ["6", "2", "Y", "1", "no"]),
    *(["7", "2", "Z", "1", "yes"], ["8", "2", "Y", "1", "yes"]),
    *(["10", "3", "X", "1", "yes"], ["11", "3", "Z", "1", "yes"], ["12", "3", "Y", "1", "yes"]),
]
# By the tie-breaking numbers of round 3, either X or Y gives up a block: case 0 is that X does.
DEMANDS = [
    *(["1", "X", "2"], ["1", "Y", "1"], ["1", "Z", "1"]),
    *(["2", "X", "2"], ["2", "Y", "1"], ["2", "Z", "1"]),
]
LAST_DEMANDS = [
    [["3", "X", "1"], ["3", "Y", "1"], ["3", "Z", "1"]],
    [["3", "X", "2"], ["3", "Z", "1"]],
]
ACTIVITY = [
    *(["1", "X", "4", "2", "4"], ["1", "Y", "4", "1", "2"], ["1", "Z", "4", "1", "2"]),
    *(["2", "X", "4", "2", "4"], ["2", "Y", "2", "1", "2"], ["2", "Z", "2", "1", "2"]),
]
LAST_ACTIVITY = [
    [["3", "X", "4", "1", "2"], ["3", "Y", "2", "1", "2"], ["3", "Z", "2", "1", "2"]],
    [["3", "X", "4", "2", "4"], ["3", "Y", "2", "0", "0"], ["3", "Z", "2", "1", "2"]],
]
WINNERS = [
    [["X", "A", "1", "115", "115"], ["Y", "A", "1", "115", "115"], ["Z", "A", "1", "115", "115"]],
    [["X", "A", "2", "115", "230"], ["Z", "A", "1", "115", "115"]],
]
TIES = [(number, bidder) for number in "23" for bidder in "XYZ"]


def rows_of(file: pathlib.Path, *left_out: int) -> list[list[str]]:
    """The rows of a table after its head, without some columns."""
    with open(file, newline="", encoding="utf-8") as text:
        rows = list(csv.reader(text))[1:]
    return [[cell for column, cell in enumerate(row) if column not in left_out] for row in rows]


def ties_in(record: pathlib.Path) -> dict[tuple[str, str], int]:
    """The tie-breaking numbers of a record, by round and bidder."""
    rows = rows_of(record / "ties.csv")
    return {(number, bidder): int(tie) for number, bidder, _, tie in rows}


def case_of(record: pathlib.Path) -> int:
    """Which of the two results the tie-breaking numbers of round 3 lead to."""
    ties = ties_in(record)
    return int(ties["3", "X"] > ties["3", "Y"])
