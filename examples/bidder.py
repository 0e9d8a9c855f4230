#!/usr/bin/env python3
"""A bidder that follows price limits, like a sincere script of a replay document.

    TOKEN=.. examples/bidder.py URL LIMITS [--every SECONDS] [--receipts FILE]

URL begins with http:// or https://. LIMITS is a file such as {"North": [2300, 1900], "South":
[610]}: for each product, up to which price you want the first block, the second, and so on, never
rising. The token is in the environment, so neither the shell's history nor the list of processes
has it. CA names a file of certificates if the system's do not cover the server.

It prints each round's sheet, then the round's results for this bidder ("slip"), and at the end what
it won.

After each accepted sheet it waits up to five seconds for the receipt, checks it, adds it to FILE,
by default receipts.jsonl, and reports it or what is missing. The file's first line is the
commitment, the second names the bidder.

Before it sends a sheet, it adds what it sends to FILE. If a receipt comes for a sheet that it did
not send, it says so: if you did not send it either, someone put it in. `auction check-receipts`
compares the file with the published journal. It checks signatures if openssl is installed, and the
published seed of each closed round. Without a commitment, as at the server's own port, it says once
that there are no receipts.

If no window is open, it waits for the signed refusal of its sheet, and adds it to FILE too.

It reads the status every SECONDS, by default 1, and misses no round that is open longer than that.
If no reply comes, or a page that is not the server's, it says so and repeats the request for an
hour. After such a failure, and at every thirtieth status, it checks its sheet.

While a round is closing, pages are withheld until its results appear. It says so, and waits.

If no sheet is in force, because a server without a journal was restarted, it submits the sheet
again. It does not replace a sheet that you submitted in another way. If no window is open, it waits
for one.

Exit status: 1 if a sheet is refused, if it missed a round, or if the number of the round fell,
which means that another server answers. Also 1, before any bid, if LIMITS is wrong or names a
product that is not in the auction.
"""
import argparse
import hashlib
import http.client
import itertools
import json
import os
import pathlib
import ssl
import subprocess
import sys
import tempfile
import time
import urllib.request
from collections import Counter

MOCK = "MOCK"  # how each token of a mock auction begins, and no other
BUSY = (408, 429, 500, 502, 503, 504)
# nginx's answers that say to wait: no window is open, or the round is closing.
WAITS = {409: b'"window"', 503: b'"closing"'}
PATIENCE = 3600
LOOK = 30
RECEIPT_SECONDS = 5
SIGNED_RECEIPT = "receipt 2"
SIGNED_REFUSAL = "refusal 1"
SIGNED = {
    SIGNED_RECEIPT: ("auction", "bidder", "by", "round", "sheet", "taken", "body", "text"),
    SIGNED_REFUSAL: ("auction", "bidder", "by", "number", "time"),
}

# The parts of each page that the bidder reads: keys of an object, and a list's entries, one for
# each product.
STATUS = {"ended": bool, "round": int}
PRODUCTS = {"products": [{"name": str, "opening": int}]}
PRICES = {"products": [{"next": int, "posted": int}]}
RESULT = {"products": [{"posted": int}]}
SLIP = {"demands": [int]}
ACCOUNT = {**STATUS, **SLIP, "name": str}
IN_FORCE = {"bids": (list, type(None))}
ACCEPTED = {"accepted": bool}
COMMITMENT = {"auction": str, "chain": (dict, type(None)), "key": str}
SEED = {"seed": str}
REFUSAL = {
    "auction": str,
    "bidder": str,
    "by": str,
    "number": int,
    "signature": str,
    "time": str,
}
RECEIPT = {
    "auction": str,
    "bidder": str,
    "body": str,
    "by": str,
    "round": int,
    "sheet": int,
    "signature": str,
    "taken": str,
    "text": str,
}


def has_shape(page, shape, products):
    """Whether a page has the parts that the bidder reads.

    `products` is None until their number is known.
    """
    if isinstance(shape, dict):
        return isinstance(page, dict) and all(
            key in page and has_shape(page[key], inner, products) for key, inner in shape.items()
        )
    if isinstance(shape, list):
        return (
            isinstance(page, list)
            and products in (None, len(page))
            and all(has_shape(part, shape[0], products) for part in page)
        )
    return isinstance(page, shape)


class EachReply(urllib.request.HTTPErrorProcessor):
    """Passes on each reply unchanged.

    Follows no redirection, because the token is for one address only.
    """

    http_response = https_response = lambda self, request, reply: reply


def text_of(sheet):
    """The body of a sheet, as the bidder sends it."""
    return json.dumps(sheet)


class Auction:
    """The pages of an auction, as one bidder sees them."""

    def __init__(self, url, token, every):
        self.url, self.token, self.every = url.rstrip("/"), token, every
        self.products, self.receipts = None, None
        self.is_in_doubt, self.is_closing, self.is_waiting = False, False, False
        tls = (
            ssl.create_default_context(cafile=os.environ.get("CA"))
            if url.startswith("https")
            else None
        )
        # Without TLS, the proxy of `http_proxy` would see the token.
        proxies = urllib.request.ProxyHandler(None if tls else {})
        self.opener = urllib.request.build_opener(
            EachReply, proxies, urllib.request.HTTPSHandler(context=tls)
        )

    def ask(self, path, shape, sheet=None, may_lack=False):
        """Returns the page. A refusal ends the program.

        Repeats the request if no reply came, or another page, or if the server is busy. With
        `may_lack`, it returns None for a page that does not exist.
        """
        body = None if sheet is None else text_of(sheet).encode()
        headers = {"authorization": "Bearer " + self.token, "content-type": "application/json"}
        request = urllib.request.Request(
            self.url + path, body, headers, method="GET" if sheet is None else "PUT"
        )
        given_up, is_noted = time.monotonic() + PATIENCE, sheet is None or not self.receipts
        while time.monotonic() < given_up:
            if not is_noted:
                self.receipts.note(text_of(sheet))
            try:
                with self.opener.open(request, timeout=30) as reply:
                    text = reply.read()
                if reply.status in WAITS and WAITS[reply.status] in text:
                    self.tell(reply.status)
                    given_up = time.monotonic() + PATIENCE
                    is_noted = True  # this one was not taken, so the next is the one that is noted
                    time.sleep(self.every)
                    continue
                if reply.status == 404 and may_lack:
                    return None
                if reply.status >= 300 and reply.status not in BUSY:
                    self.end_refused(path, reply.status, text)
                if reply.status < 300 and has_shape(page := json.loads(text), shape, self.products):
                    self.is_waiting = self.is_waiting and sheet is None
                    self.is_closing = self.is_closing and not path.startswith("/v1/")
                    return page
                fault = f"{reply.status} {reply.reason}, not a page of the server: {text[:80]}"
            except (OSError, http.client.HTTPException, RecursionError, ValueError) as error:
                fault = error
            print(f"no reply to {path}: {fault}", file=sys.stderr)
            # A sheet without a reply may have been taken, and then the next is one more.
            self.is_in_doubt, is_noted = True, sheet is None or not self.receipts
            time.sleep(self.every)
        sys.exit(f"{path}: no reply for {PATIENCE} seconds")

    @property
    def is_mock(self):
        """Whether the token is of a mock auction."""
        return self.token.upper().startswith(MOCK)

    def end_refused(self, path, status, text):
        """Ends the program with the words of a refusal."""
        words = self.other_kind() if status == 401 else ""
        sys.exit(f"{path} is refused: {status} {text.decode(errors='replace')}{words}")

    def other_kind(self):
        """The words for a token of a mock auction at the address of a real one, or the reverse.

        Nothing if they are of one kind, or if no commitment is there.
        """
        try:
            with self.opener.open(self.url + "/public/commitment.json", timeout=30) as reply:
                is_mock = json.loads(reply.read()).get("mock", False)
        except (OSError, http.client.HTTPException, AttributeError, ValueError):
            return ""
        if is_mock == self.is_mock:
            return ""
        kinds = ["the real auction", "the mock auction"]
        return f"\nThe token is of {kinds[self.is_mock]}, and the address of {kinds[is_mock]}."

    def tell(self, status):
        """Says, once each time, that the round is closing, or that the sheet waits for a window.

        It says until when, if that is published.
        """
        if status == 503 and not self.is_closing:
            self.is_closing, when = True, self.time_of("results")
            words = f"results appear at {when}" if when else "its results follow"
            print(f"The round is closing; {words}.", file=sys.stderr, flush=True)
        if status == 409 and not self.is_waiting:
            self.is_waiting, when = True, self.time_of("opens")
            words = f"the round opens at {when}" if when else "the round is not open"
            print(f"Waiting to send the sheet: {words}.", file=sys.stderr, flush=True)
            if self.receipts:
                self.receipts.await_refusal()

    def time_of(self, key):
        """A time of the current round's window, by the published timetable, or None."""
        try:
            with self.opener.open(self.url + "/public/timetable.json", timeout=30) as reply:
                table = json.loads(reply.read())
            window = next(each for each in table["windows"] if each["round"] == table["round"])
            return window[key]
        except (OSError, http.client.HTTPException, KeyError, StopIteration, TypeError, ValueError):
            return None

    def prices(self, products, number):
        """The start-of-round and clock prices of a round."""
        if number == 1:
            return [(product["opening"], product["opening"]) for product in products]
        return [
            (product["posted"], product["next"])
            for product in self.ask(f"/v1/rounds/{number - 1}", PRICES)["products"]
        ]

    def wait(self, number, sheet):
        """Returns when a round is closed.

        Sleeps first, because a proxy's status may be a second old.
        """
        for times in itertools.count(1):
            time.sleep(self.every)
            if last_closed(self.ask("/v1/status", STATUS), number) == number:
                return
            looks, self.is_in_doubt = self.is_in_doubt or times % LOOK == 0, False
            if looks and self.ask("/v1/me/bids", IN_FORCE)["bids"] is None:
                # If the round is closed, no sheet of it is in force.
                if last_closed(self.ask("/v1/me", ACCOUNT), number) < number:
                    print(
                        f"the sheet of round {number} is no longer in force: submitting it again",
                        file=sys.stderr,
                    )
                    self.ask("/v1/me/bids", ACCEPTED, sheet)


class Receipts:
    """The receipts of this bidder's sheets, and the refusals of late ones, in a file that `auction
    check-receipts` reads.
    """

    def __init__(self, auction, path, name):
        self.auction, self.path, self.name, self.have = auction, path, name, set()
        self.refused = 0  # the number of the last refusal
        self.texts, self.sent, self.taken = {}, Counter(), Counter()  # by digests of bodies
        self.commitment = auction.ask("/public/commitment.json", COMMITMENT, may_lack=True)
        if self.commitment is None:
            print("no commitment is published, so sheets have no receipts", flush=True)
        elif path.exists():
            first, *lines = map(json.loads, path.read_text(encoding="utf-8").splitlines())
            if first != self.commitment:
                sys.exit(f"{path} has another commitment than the one that is published")
            self.read(lines)
        else:
            self.add(self.commitment)
            self.add({"bidder": name})
        self.take_refusal()  # of before, so that a new one is known by its number

    def read(self, lines):
        """Takes what the file has: what was sent, receipts, and refusals."""
        for line in lines:
            if line.keys() == {"sent"}:
                self.count(line["sent"])
            elif REFUSAL.keys() <= line.keys():
                self.refused = line["number"]
            elif "signature" in line:
                self.have.add((line["round"], line["sheet"]))
                self.taken[line["body"]] += 1

    def note(self, text):
        """Stores what will be sent: it shows later which sheets are own ones."""
        if self.commitment:
            self.count(text)
            self.add({"sent": text})

    def count(self, text):
        """Counts a sheet that was sent."""
        self.texts[digest_of(text)] = text
        self.sent[digest_of(text)] += 1

    def add(self, line):
        """Appends a line to the file, and syncs it."""
        with open(self.path, "a", encoding="utf-8") as file:
            file.write(json.dumps(line) + "\n")
            file.flush()
            os.fsync(file.fileno())

    def await_one(self, sheet):
        """Waits for the receipt of an accepted sheet.

        Stores other receipts of this bidder that come first.
        """
        text, end = text_of(sheet), time.monotonic() + RECEIPT_SECONDS
        while self.commitment:
            receipt = self.take(sheet["round"])
            if receipt and receipt["body"] == digest_of(text):
                kind = ", of the mock auction" if is_marked(receipt) else ""
                return print(
                    f"receipt of sheet {receipt['sheet']} of round {receipt['round']}{kind}",
                    flush=True,
                )
            if receipt is None and time.monotonic() > end:
                return print(
                    f"no receipt within {RECEIPT_SECONDS} s: call the operator", file=sys.stderr
                )
            if receipt is None:
                time.sleep(0.2)

    def await_refusal(self):
        """Waits for the signed refusal of a sheet that came when no window was open."""
        end = time.monotonic() + RECEIPT_SECONDS
        while self.commitment and not self.take_refusal():
            if time.monotonic() > end:
                return print(
                    f"no signed refusal within {RECEIPT_SECONDS} s: call the operator",
                    file=sys.stderr,
                )
            time.sleep(0.2)

    def take_refusal(self):
        """Stores the last refusal, and reports it. Returns whether it is a new one."""
        page = self.commitment and self.auction.ask(
            "/receipts/refused.json", REFUSAL, may_lack=True
        )
        if not page or page["number"] <= self.refused:
            return False
        self.refused = page["number"]
        is_own = [page["auction"], page["bidder"]] == [self.commitment["auction"], self.name]
        is_own = is_own and is_marked(page) == is_marked(self.commitment)
        if is_own and is_signed(self.commitment["key"], page, SIGNED_REFUSAL):
            self.add(parts_of(page, REFUSAL))
            kind = "of the mock auction, " if is_marked(page) else ""
            words = f"refusal {page['number']} is signed, {kind}of {page['time']}"
        else:
            words = f"this is not a refusal of a sheet of {self.name}: {page}"
        print(words, file=sys.stderr, flush=True)
        return True

    def check_seed(self, number):
        """Reports a published seed that is not the committed one, if it is published yet."""
        chain = self.commitment and self.commitment["chain"]
        page = chain and self.auction.ask(f"/public/rounds/{number}.json", SEED, may_lack=True)
        if not page:
            return
        seed = bytes_in(page["seed"])
        for _ in range(number):
            seed = hashlib.sha256(seed).digest()
        if seed.hex() != chain["end"]:
            print(
                f"the seed of round {number} is not the committed one: call the auditor",
                file=sys.stderr,
            )

    def take(self, number):
        """Stores the next receipt of a round, and returns it, or None if there is none yet.

        Reports one of a sheet that was not sent. It stays in the file, without what was sent.
        """
        place = next(place for place in itertools.count(1) if (number, place) not in self.have)
        receipt = self.commitment and self.auction.ask(
            f"/receipts/{number}/{place}.json", RECEIPT, may_lack=True
        )
        if not receipt:
            return None
        self.have.add((number, place))
        named = [receipt[part] for part in ("auction", "bidder", "round", "sheet")]
        is_right = named == [self.commitment["auction"], self.name, number, place]
        is_right = is_right and is_marked(receipt) == is_marked(self.commitment)
        if not is_right or not is_signed(self.commitment["key"], receipt):
            print(
                f"this is not a receipt of sheet {place} of round {number}: {receipt}",
                file=sys.stderr,
            )
            return {**receipt, "body": ""}
        body = receipt["body"]
        self.taken[body] += 1
        if self.taken[body] <= self.sent[body]:
            self.add({**parts_of(receipt, RECEIPT), "sent": self.texts[body]})
            return receipt
        self.add(parts_of(receipt, RECEIPT))
        by = f", by {receipt['by']}" if receipt["by"] else ""
        print(
            f"WARNING: sheet {place} of round {number} was accepted in your name{by}, and this "
            "program did not send it. If you did not either, call the auditor",
            file=sys.stderr,
        )
        return receipt


def bytes_in(digits):
    """The bytes of a hexadecimal text, or none if it is not hexadecimal."""
    try:
        return bytes.fromhex(digits)
    except ValueError:
        return b""


def digest_of(text):
    return hashlib.sha256(text.encode()).hexdigest()


def is_marked(page):
    """Whether a page says that it is of a mock auction."""
    return page.get("mock") is True


def parts_of(page, shape):
    """What a file has of a receipt, or a refusal. The operator could add what makes it none."""
    return {name: page[name] for name in (*shape, *["mock"] * is_marked(page))}


def is_signed(key, page, first=SIGNED_RECEIPT):
    """Whether the committed key signed a receipt, or a refusal, by the first line of its message.

    Returns True if openssl is missing.
    """
    kind = "clock_auction mock " if is_marked(page) else "clock_auction "
    lines = [kind + first, *(f"{name} {page[name]}" for name in SIGNED[first])]
    files = {
        "key": f"-----BEGIN PUBLIC KEY-----\n{key}\n-----END PUBLIC KEY-----\n".encode(),
        "message": "".join(line + "\n" for line in lines).encode(),
        "signature": bytes_in(page["signature"]),
    }
    words = "openssl pkeyutl -verify -rawin -pubin -inkey key -sigfile signature -in message"
    with tempfile.TemporaryDirectory() as folder:
        for name, data in files.items():
            pathlib.Path(folder, name).write_bytes(data)
        try:
            return subprocess.run(words.split(), cwd=folder, capture_output=True).returncode == 0
        except OSError:
            return True


def last_closed(page, number):
    """The last closed round, by a page that has the current one.

    Ends the program if the number of the round fell, or a round was missed.
    """
    closed = page["round"] if page["ended"] else page["round"] - 1
    if page["round"] < number:
        sys.exit(f"the round fell from {number} to {page['round']}: another server answers")
    if closed > number:
        sys.exit(f"round {number + 1} was missed")
    return closed


def steps_of(limits, held, start, clock):
    """The quantities and prices of the bids for a product.

    A block leaves at its limit, but not below the start-of-round price, and there if it has no
    limit. If no block leaves, the bid maintains demand.
    """
    limits = (limits + [0] * held)[:held]
    leaving = sorted({max(start, limit) for limit in limits if limit < clock})
    if held and not leaving:
        return [(held, clock)]
    return [(sum(limit > price for limit in limits), price) for price in leaving]


def bids_of(wanted, products, prices, held, number):
    """The bids of a round for the wanted blocks. `held` has the processed demands."""
    bids = []
    for place, (product, (start, clock)) in enumerate(zip(products, prices)):
        limits = wanted.get(product["name"], [])
        # In round 1, the bidder asks for the blocks with a limit at or above the opening price.
        blocks = sum(limit >= clock for limit in limits) if number == 1 else held[place]
        bids += [
            {"price": price, "product": place, "quantity": quantity}
            for quantity, price in steps_of(limits, blocks, start, clock)
        ]
    return bids


def limits_of(path):
    """Reads the limits in a file. Ends the program if they are wrong."""
    try:
        with open(path, encoding="utf-8-sig") as file:
            wanted = json.load(file)
    except (OSError, ValueError) as error:
        sys.exit(f"{path}: {error}")
    if not isinstance(wanted, dict):
        sys.exit(f"{path}: expected an object with a list for each product")
    for name, limits in wanted.items():
        whole = isinstance(limits, list) and all(type(limit) is int for limit in limits)
        if not whole or limits != sorted(limits, reverse=True):
            sys.exit(f"{path}: the limits of {name} must be a list of whole numbers, never rising")
    return wanted


def play(auction, wanted, path):
    """Bids in each round until the auction has ended, and prints each sheet and its results."""
    if auction.is_mock:
        print("This is a mock auction: nothing is sold.", flush=True)
    products = auction.ask("/v1/products", PRODUCTS)["products"]
    auction.products = len(products)
    account = auction.ask("/v1/me", ACCOUNT)
    if strangers := wanted.keys() - {product["name"] for product in products}:
        sys.exit(f"no product is called {', '.join(sorted(strangers))}")
    receipts = auction.receipts = Receipts(auction, path, account["name"])
    while not account["ended"]:
        number = account["round"]
        sheet = {
            "bids": bids_of(
                wanted, products, auction.prices(products, number), account["demands"], number
            ),
            "round": number,
        }
        print(
            "sheet",
            json.dumps(sheet),
            auction.ask("/v1/me/bids", ACCEPTED, sheet)["accepted"],
            flush=True,
        )
        receipts.await_one(sheet)
        for closed in range(1, number)[-1:]:
            receipts.check_seed(closed)  # of the round before, which is published by now
        auction.wait(number, sheet)
        while receipts.take(number):
            pass  # those that came late, or of sheets that were submitted in another way
        print("slip", json.dumps(auction.ask(f"/v1/me/rounds/{number}", SLIP)), flush=True)
        account = auction.ask("/v1/me", ACCOUNT)
        last_closed(account, number)
    last = auction.ask(f"/v1/rounds/{account['round']}", RESULT)["products"]
    pay = sum(blocks * product["posted"] for blocks, product in zip(account["demands"], last))
    print("won", account["name"], *account["demands"], pay)


def main():
    parser = argparse.ArgumentParser(
        description=__doc__, formatter_class=argparse.RawDescriptionHelpFormatter
    )
    parser.add_argument("url")
    parser.add_argument("limits")
    parser.add_argument("--every", type=float, default=1.0)
    parser.add_argument("--receipts", type=pathlib.Path, default=pathlib.Path("receipts.jsonl"))
    arguments = parser.parse_args()
    if not arguments.url.startswith(("http://", "https://")):
        parser.error("URL must begin with http:// or https://")
    if not 0 < arguments.every <= PATIENCE:
        parser.error(f"SECONDS must be above 0, and at most {PATIENCE}")
    token = os.environ.get("TOKEN", "").strip()
    if not token or not token.isascii() or not token.isprintable():
        sys.exit("Set TOKEN in the environment to your token")
    try:
        auction = Auction(arguments.url, token, arguments.every)
    except OSError as error:
        sys.exit(f"CA: {error}")
    play(auction, limits_of(arguments.limits), arguments.receipts)


if __name__ == "__main__":
    main()
