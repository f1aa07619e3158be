"""A planned restart: pages are asked for until the journal of the boot is nearly full."""

import re
import threading
import time

from service import Browser, Closed, Connection, Service, Wrong, expect

MOST_SECONDS = 300
# How long the shop may be down; a busy machine takes its time.
MOST_DOWN = 8
LOADERS = 2
TOGETHER = 100
# 7/8 and 31/32 of the entries that a journal may have, and how many may come until the thread that decides looks again,
# which rests for five milliseconds.
FIRST, LAST, BETWEEN_LOOKS = 229_376, 253_952, 2_000
PAGES = b"GET / HTTP/1.1\r\n\r\n" * TOGETHER
# How many of these a client sends that takes none, and how long it pauses then.
UNREAD, PAUSE = 400, 0.05


def loads(service, deadline, faults):
    """Asks for pages, many at a time, until the server has restarted."""
    connection = None
    try:
        while service.boots() == 1 and time.monotonic() < deadline:
            try:
                connection = connection or Connection(service.port)
                connection.send(PAGES)
                for _ in range(TOGETHER):
                    connection.response()
            except Closed:
                connection.close()
                connection = None
    except Exception as fault:
        faults.append(fault)


def goes_on_sending(service, deadline, faults):
    """Asks for many pages and takes none, and sends on where its connection was ended, until the server has restarted.
    So there is always something on its way that nobody has read."""
    connection = None
    while service.boots() == 1 and time.monotonic() < deadline:
        try:
            if not connection:
                connection = Connection(service.port)
                connection.send(PAGES * UNREAD)
            connection.send(b"G")
            time.sleep(PAUSE)
        except (Closed, OSError):
            connection = connection and connection.close()


def looks(service, deadline, faults):
    """That the server is not down for long when it restarts."""
    begun = None
    while service.boots() == 1 and time.monotonic() < deadline:
        if begun is None and service.lines()[-1].startswith("restarting "):
            begun = time.monotonic()
        time.sleep(0.01)
    if begun is not None and time.monotonic() > begun + MOST_DOWN:
        faults.append(Wrong(f"a restart took {time.monotonic() - begun:.1f} seconds"))


def check(program, room):
    """What was bid before is there, the session goes on, and a form of before is old."""
    service = Service(program, room).start()
    ann, ben = Browser(service.port), Browser(service.port)
    expect(ann.send("register", name="ann", password="x"), 200, "Welcome ann")
    expect(ann.send("category", name="Maps"), 200, "Category 1")
    expect(ann.send("sell", title="Atlas", category=1, start=1, buy_now=0, hours=1), 200, "Item 1")
    expect(ben.send("register", name="ben", password="x"), 200, "Welcome ben")
    form = ben.form("bid")
    expect(ben.fill(form, {"item": 1, "amount": 500}), 200, "Bid 1 on item 1")
    faults, begun = [], time.monotonic()
    args = (service, begun + MOST_SECONDS, faults)
    threads = [threading.Thread(target=it, args=args) for it in [loads] * LOADERS + [goes_on_sending, looks]]
    for thread in threads:
        thread.start()
    for thread in threads:
        thread.join()
    if faults:
        raise faults[0]
    if service.boots() == 1:
        raise Wrong(f"no restart came in {MOST_SECONDS} seconds")
    ben.leave()
    expect(ben.fill(form, {"item": 1, "amount": 500}), 409, "Form is old")
    expect(ben.get("/"), 200, "Auctions", "User 2", ("/categories", "Categories"))
    expect(ben.send("bid", item=1, amount=600), 200, "Bid 2 on item 1")
    told = service.lines()
    service.kill()
    found = re.fullmatch(r"restarting behind ([0-9]+) entries", told[2]) if len(told) == 4 else None
    is_planned = found and FIRST <= int(found[1]) <= LAST + BETWEEN_LOOKS
    if not is_planned or not told[3].startswith("boot 2 started over "):
        raise Wrong(f"the operator is told {told}")
    return f"a restart behind {found[1]} entries"
