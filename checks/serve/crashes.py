"""A server that is killed again and again while customers bid: each bid that was acknowledged is found once."""

import random
import re
import struct
import threading
import time
from collections import Counter

from service import Browser, Closed, Service, Wrong, expect, sqlite3

ROUNDS = 50
BIDDERS = 4
ITEMS = 3
MOST_SECONDS = 0.5
BID_TABLE, ITEM_TABLE = 6, 4


class Ledger:
    """What was acknowledged: the item, its bid's number, who bid and how much."""

    def __init__(self):
        self.lock, self.amount, self.acknowledged, self.sent = threading.Lock(), 100, [], 0

    def next_amount(self):
        with self.lock:
            self.amount += 1
            self.sent += 1
            return self.amount

    def keep(self, bid):
        with self.lock:
            self.acknowledged.append(bid)


def bid_on(browser, user, ledger, chance):
    """Bids once. A customer who is outbid, or who loses to others three times, goes on."""
    item, amount = chance.randint(1, ITEMS), ledger.next_amount()
    answer = browser.send("bid", item=item, amount=amount)
    found = re.search("<h1>Bid ([0-9]+) on item ([0-9]+)</h1>", answer.page)
    if found and (answer.status, int(found[2])) == (200, item):
        ledger.keep((item, int(found[1]), user, amount))
    elif (answer.status, "Bid too low" in answer.page) != (409, True) and answer.status != 503:
        raise Wrong(f"a bid is answered {answer.status}\n{answer.page}")


def customer(service, number, ledger, faults):
    """Signs in and bids, until the server is gone."""
    browser, chance = Browser(service.port), random.Random()
    try:
        expect(browser.send("signin", name=f"bidder{number}", password="x"), 200, f"Welcome bidder{number}")
        while True:
            bid_on(browser, number + 2, ledger, chance)
    except (Closed, OSError):
        browser.leave()
    except Exception as fault:
        faults.append(fault)


def set_up(service):
    """Somebody sells, and others register."""
    seller = Browser(service.port)
    expect(seller.send("register", name="seller", password="x"), 200, "Welcome seller")
    expect(seller.send("category", name="Maps"), 200, "Category 1")
    for item in range(1, ITEMS + 1):
        expect(seller.send("sell", title="Atlas", category=1, start=1, buy_now=0, hours=720), 200, f"Item {item}")
    for number in range(BIDDERS):
        bidder = Browser(service.port)
        expect(bidder.send("register", name=f"bidder{number}", password="x"), 200, f"Welcome bidder{number}")
        bidder.leave()
    seller.leave()


def bids_of(rows):
    """The bids by item and number: who bid, and how much."""
    return {
        (key >> 20, key & 0xFFFFF): struct.unpack(">QQ", data[:16])
        for (table, key), data in rows.items()
        if table == BID_TABLE
    }


def judge(rows, ledger):
    """Each acknowledged bid is in the rows once, in its place; the bids on an item are numbered from 1 and rise, and
    the item tells how many there are and which is the best."""
    bids = bids_of(rows)
    times = Counter(bids.values())
    for item, number, user, amount in ledger.acknowledged:
        if bids.get((item, number)) != (user, amount):
            found = bids.get((item, number))
            raise Wrong(f"bid {number} on item {item} was {amount} by user {user}, and is now {found}")
        if times[user, amount] != 1:
            raise Wrong(f"the bid of {amount} by user {user} is there more than once")
    for item in range(1, ITEMS + 1):
        on_it = sorted((number, *it) for (of, number), it in bids.items() if of == item)
        amounts = [amount for _, _, amount in on_it]
        if [number for number, _, _ in on_it] != list(range(1, len(on_it) + 1)) or amounts != sorted(set(amounts)):
            raise Wrong(f"the bids on item {item} are {on_it}")
        data = rows[ITEM_TABLE, item]
        best, bidder, count = struct.unpack(">QQI", data[33:53])
        if (count, best) != (len(on_it), amounts[-1] if amounts else 0) or (on_it and bidder != on_it[-1][1]):
            raise Wrong(f"item {item} tells of {count} bids, the best {best} by user {bidder}; its bids are {on_it}")
    if len(bids) > ledger.sent:
        raise Wrong(f"there are {len(bids)} bids, and {ledger.sent} were sent")


def judge_pages(service, ledger):
    """The same as far as pages tell: the price of each item is that of an acknowledged bid or above."""
    looker = Browser(service.port)
    for item in range(1, ITEMS + 1):
        price = int(re.search("<p>Price ([0-9]+)</p>", looker.get(f"/item/{item}").page)[1])
        best = max((amount for of, _, _, amount in ledger.acknowledged if of == item), default=0)
        if price < best:
            raise Wrong(f"item {item} is at {price}, and {best} was acknowledged")
    looker.leave()


def play_round(service, ledger):
    """Starts the server, lets the customers bid, and kills it at some moment."""
    service.start()
    judge_pages(service, ledger)
    faults = []
    threads = [threading.Thread(target=customer, args=(service, it, ledger, faults)) for it in range(BIDDERS)]
    for thread in threads:
        thread.start()
    time.sleep(random.uniform(0, MOST_SECONDS))
    service.kill()
    for thread in threads:
        thread.join()
    if faults:
        raise faults[0]
    if sqlite3:
        judge(service.rows(), ledger)


def check(program, room):
    """So many rounds, over one file."""
    service, ledger = Service(program, room).start(), Ledger()
    set_up(service)
    service.kill()
    for _ in range(ROUNDS):
        play_round(service, ledger)
    if len(ledger.acknowledged) < ROUNDS:
        raise Wrong(f"only {len(ledger.acknowledged)} bids were acknowledged in {ROUNDS} rounds")
    service.start()
    judge_pages(service, ledger)
    service.kill()
    if service.boots() != ROUNDS + 2:
        raise Wrong(f"{ROUNDS + 2} starts were told as {service.lines()}")
    return f"{ROUNDS} kills under bids, with each of {len(ledger.acknowledged)} acknowledged bids found once"
