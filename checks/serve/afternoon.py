"""What customers do, and how they are refused: each page as docs/AUCTION.md and docs/HTTP.md have it."""

import base64
import hashlib
import hmac
import re
import subprocess

from service import Browser, Connection, Service, Wrong, expect, page, sqlite3

HOME = "Auctions"
CATEGORIES = ("/categories", "Categories")
ENDS = {"connection": "close"}

# Requests that are refused off their bytes, or by their path, method or coding: the bytes, in which \n stands for CR
# LF; the status, the reason and the heading of the page; and the fields besides.
BYTES = (
    ("GET / HTTP/1.1\nTransfer-Encoding: chunked\n\n", 501, "Not Implemented", "Coding not supported", ENDS),
    ("hello\n\n", 400, "Bad Request", "Bad request", ENDS),
    ("GET / HTTP/1.1\nContent-Length: 5, 5\n\n", 400, "Bad Request", "Bad request", ENDS),
    ("GET / HTTP/1.1\nX: " + "x" * 16_400, 431, "Request Header Fields Too Large", "Head too long", ENDS),
    ("POST /bid HTTP/1.1\nContent-Length: 65537\n\n", 413, "Content Too Large", "Body too long", ENDS),
    ("GET /nothing HTTP/1.1\n\n", 404, "Not Found", "Not there", {}),
    ("GET /item/07 HTTP/1.1\n\n", 404, "Not Found", "Not there", {}),
    ("GET /form/nothing HTTP/1.1\n\n", 404, "Not Found", "Not there", {}),
    ("PUT / HTTP/1.1\n\n", 405, "Method Not Allowed", "Method not allowed", {"allow": "GET, HEAD"}),
    ("GET /bid HTTP/1.1\n\n", 405, "Method Not Allowed", "Method not allowed", {"allow": "POST"}),
    ("DELETE /categories HTTP/1.1\n\n", 405, "Method Not Allowed", "Method not allowed", {"allow": "GET, HEAD, POST"}),
    (
        "POST /bid HTTP/1.1\nContent-Type: multipart/form-data; boundary=x\nContent-Length: 0\n\n",
        415,
        "Unsupported Media Type",
        "Form not understood",
        {},
    ),
    ("POST /bid HTTP/1.1\nContent-Length: 15\n\nitem=1&amount=2", 400, "Bad Request", "Bad field token", {}),
    ("GET /category/1?page=10000 HTTP/1.1\n\n", 400, "Bad Request", "Bad field page", {}),
    ("GET / HTTP/1.0\n\n", 200, "OK", HOME, ENDS),
)

# Forms whose first bad field is named: the kind, its values, and the field.
FIELDS = (
    ("register", {"name": "", "password": "a"}, "name"),
    ("register", {"name": "x" * 25, "password": "a"}, "name"),
    ("register", {"name": "a b", "password": ""}, "name"),
    ("register", {"name": "dot", "password": ""}, "password"),
    ("signin", {"name": "ann", "password": "x" * 73}, "password"),
    ("category", {"name": "x" * 41}, "name"),
    ("sell", {"title": "", "category": 1, "start": 1, "buy_now": 0, "hours": 1}, "title"),
    ("sell", {"title": "x" * 81, "category": 1, "start": 1, "buy_now": 0, "hours": 1}, "title"),
    ("sell", {"title": "Atlas", "category": 0, "start": 1, "buy_now": 0, "hours": 1}, "category"),
    ("sell", {"title": "Atlas", "category": 1, "start": 0, "buy_now": 0, "hours": 1}, "start"),
    ("sell", {"title": "Atlas", "category": 1, "start": 1, "buy_now": 4_000_000_001, "hours": 1}, "buy_now"),
    ("sell", {"title": "Atlas", "category": 1, "start": 2, "buy_now": 1, "hours": 1}, "buy_now"),
    ("sell", {"title": "Atlas", "category": 1, "start": 1, "buy_now": 0, "hours": 721}, "hours"),
    ("bid", {"item": "01", "amount": 1}, "item"),
    ("bid", {"item": 1, "amount": "1.50"}, "amount"),
    ("buy", {"item": 4_294_967_296}, "item"),
    ("close", {"item": 0}, "item"),
    ("feedback", {"item": 1, "good": 2, "text": ""}, "good"),
    ("feedback", {"item": 1, "good": 1, "text": "x" * 201}, "text"),
)

# Forms that the shop refuses, behind what `sales` did: who sends it, the kind, its values, the status and the heading.
RULES = (
    ("nobody", "sell", {"title": "Atlas", "category": 1, "start": 1, "buy_now": 0, "hours": 1}, 403, "Sign in first"),
    ("nobody", "bid", {"item": 1, "amount": 9000}, 403, "Sign in first"),
    ("nobody", "category", {"name": "Maps"}, 403, "Sign in first"),
    ("ben", "category", {"name": "Maps"}, 403, "Not allowed"),
    ("nobody", "register", {"name": "ann", "password": "other"}, 409, "Name taken"),
    ("nobody", "signin", {"name": "ann", "password": "other"}, 403, "Wrong name or password"),
    ("nobody", "signin", {"name": "nobody", "password": "other"}, 403, "Wrong name or password"),
    ("ann", "sell", {"title": "Atlas", "category": 9, "start": 1, "buy_now": 0, "hours": 1}, 409, "No such category"),
    ("ben", "bid", {"item": 9, "amount": 1}, 404, "Not there"),
    ("ben", "bid", {"item": 1, "amount": 9000}, 409, "Auction over"),
    ("ann", "bid", {"item": 3, "amount": 9000}, 409, "Own item"),
    ("ben", "bid", {"item": 3, "amount": 99}, 409, "Bid too low"),
    ("ben", "buy", {"item": 3}, 409, "Not for sale"),
    ("ann", "buy", {"item": 3}, 409, "Own item"),
    ("ben", "close", {"item": 3}, 403, "Not allowed"),
    ("ann", "close", {"item": 1}, 409, "Auction over"),
    ("ben", "feedback", {"item": 3, "good": 1, "text": ""}, 409, "Not sold"),
    ("cat", "feedback", {"item": 1, "good": 1, "text": ""}, 403, "Not allowed"),
    ("ben", "feedback", {"item": 1, "good": 0, "text": ""}, 409, "Already given"),
)


def sales(service):
    """Ann sells and Ben buys, by bid and at once, and each says something of the other. Their browsers."""
    ann, ben = Browser(service.port), Browser(service.port)
    first = ann.get("/")
    expect(first, 200, HOME, "Signed out", CATEGORIES)
    if first.fields != [("content-type", "text/html; charset=utf-8"), ("content-length", "120")]:
        raise Wrong(f"the first page has the fields {first.fields}")
    expect(ann.send("register", name="ann", password="a long walk by the sea"), 200, "Welcome ann")
    expect(ann.get("/"), 200, HOME, "User 1", CATEGORIES)
    expect(ann.send("category", name="Books & maps"), 200, "Category 1")
    expect(ann.get("/categories"), 200, "Categories", ("/category/1", "Books & maps"))
    expect(ann.send("sell", title="Atlas", category=1, start=100, buy_now=0, hours=24), 200, "Item 1")
    expect(ann.send("sell", title="<Globe>", category=1, start=100, buy_now=1000, hours=24), 200, "Item 2")
    expect(ann.send("sell", title="Compass", category=1, start=100, buy_now=0, hours=1), 200, "Item 3")
    expect(ben.send("register", name="ben", password="x"), 200, "Welcome ben")
    expect(ben.send("bid", item=1, amount=500), 200, "Bid 1 on item 1")
    form = ben.form("bid")
    for _ in range(2):
        expect(ben.fill(form, {"item": 1, "amount": 600}), 200, "Bid 2 on item 1")
    running = ben.get("/item/1")
    ends = re.search("Running until ([0-9]+)", running.page)
    expect(running, 200, "Atlas", "Seller ann", "Price 600", ends[0] if ends else "Running until a moment")
    shown = [("/item/1", "Atlas, 600"), ("/item/2", "<Globe>, 100"), ("/item/3", "Compass, 100")]
    expect(ben.get("/category/1"), 200, "Books & maps", *shown)
    expect(ben.send("buy", item=2), 200, "Bought item 2")
    expect(ben.get("/item/2"), 200, "<Globe>", "Seller ann", "Price 100", "Sold to user 2")
    expect(ann.send("close", item=1), 200, "Closed item 1")
    expect(ann.get("/item/1"), 200, "Atlas", "Seller ann", "Price 600", "Sold to user 2")
    expect(ben.send("feedback", item=1, good=1, text="A <good> atlas"), 200, "Thanks")
    expect(ann.send("feedback", item=1, good=0, text=""), 200, "Thanks")
    expect(ann.get("/user/1"), 200, "ann", "Good 1", "Bad 0")
    expect(ann.get("/user/2"), 200, "ben", "Good 0", "Bad 1")
    listed = [("/item/3", "Compass"), ("/item/2", "<Globe>"), ("/item/1", "Atlas")]
    expect(ann.get("/about"), 200, "ann", *listed)
    expect(ben.send("signout"), 200, "Signed out")
    expect(ben.get("/about"), 403, "Sign in first")
    expect(ben.send("signin", name="ben", password="x"), 200, "Welcome ben")
    expect(ben.get("/"), 200, HOME, "User 2", CATEGORIES)
    head = ben.ask("HEAD", "/")
    if (head.status, head.page, head.field("content-length")) != (200, "", str(len(page(HOME, "User 2", CATEGORIES)))):
        raise Wrong(f"HEAD is answered {head}")
    return ann, ben


def texts_are_of_the_key(service, ann):
    """A cookie and the token of a form end with the tags that the key in KEYFILE gives them; and the cookie is of node
    1."""
    with open(service.key, "rb") as file:
        secret = file.read()
    token = bytes.fromhex(ann.form("category")[1])
    data = base64.urlsafe_b64decode(ann.cookie + "=" * (-len(ann.cookie) % 4))
    fields, tag, session = data[:-32], data[-32:], data[1:17]
    if hmac.new(secret, fields, hashlib.sha256).digest() != tag:
        raise Wrong("a cookie is not of the key")
    if hmac.new(secret, b"form" + session + token[:12], hashlib.sha256).digest()[:16] != token[12:]:
        raise Wrong("the token of a form is not of the key")
    if int.from_bytes(fields[17:19], "big") != 1:
        raise Wrong("a cookie is of another node than 1")


def bytes_are_refused(service):
    """Each row of BYTES, on a connection of its own."""
    for text, status, reason, heading, fields in BYTES:
        connection = Connection(service.port)
        connection.send(text.replace("\n", "\r\n").encode())
        answer = connection.response()
        lines = ("Signed out", CATEGORIES) if heading == HOME else ()
        expect(answer, status, heading, *lines)
        besides = {name: it for name, it in answer.fields if name not in ("content-type", "content-length")}
        if answer.reason != reason or besides != fields:
            raise Wrong(f"{text[:60]!r} is answered {answer.reason} with {besides}")
        if "connection" in fields and not connection.is_ended():
            raise Wrong(f"a connection stays open behind {text[:60]!r}")
        connection.close()


def forms_are_refused(service, ann, ben):
    """Each row of FIELDS and of RULES, and tokens that are missing, of another session, and of no form."""
    nobody, cat = Browser(service.port), Browser(service.port)
    expect(cat.send("register", name="cat", password="x"), 200, "Welcome cat")
    who = {"ann": ann, "ben": ben, "cat": cat, "nobody": nobody}
    for kind, values, field in FIELDS:
        expect(ann.send(kind, **values), 400, f"Bad field {field}")
    for name, kind, values, status, heading in RULES:
        expect(who[name].send(kind, **values), status, heading)
    target, token, fields = ann.form("bid")
    for other in (token[:-1] + ("0" if token[-1] != "0" else "1"), "", "x" * 56):
        expect(ben.fill((target, other, fields), {"item": 3, "amount": 500}), 400, "Bad field token")
    expect(ben.fill((target, token, fields), {"item": 3, "amount": 500}), 400, "Bad field token")
    for path in ("/item/9", "/user/9", "/category/9"):
        expect(ben.get(path), 404, "Not there")


def what_is_of_another_start_is_refused(service, ben):
    """A form and a session of before a crash. What was acknowledged is there."""
    form = ben.form("bid")
    expect(ben.fill(form, {"item": 3, "amount": 700}), 200, "Bid 1 on item 3")
    service.kill()
    service.start()
    ben.leave()
    expect(ben.fill(form, {"item": 3, "amount": 800}), 409, "Form is old")
    kept = ben.cookie
    expect(ben.get("/item/3"), 403, "Session lost")
    if not kept or ben.cookie:
        raise Wrong("the cookie of a lost session is not cleared")
    seen = ben.get("/item/3")
    if not seen.page.startswith(page("Compass", "Seller ann", "Price 700")):
        raise Wrong(f"behind a crash, item 3 is shown as\n{seen.page}")
    expect(ben.send("signin", name="ben", password="x"), 200, "Welcome ben")
    bids_are_shown_by_sqlite(service)


def bids_are_shown_by_sqlite(service):
    """The three bids, as `sqlite3` shows them over the file of a server that is down."""
    service.kill()
    try:
        shown = subprocess.run(
            ["sqlite3", service.file, "SELECT hex(k), hex(v) FROM crash_rows WHERE t = 6 ORDER BY k"],
            stdout=subprocess.PIPE,
            check=True,
        ).stdout.decode()
    except FileNotFoundError:
        return
    # The key is the item and the bid's number in 20 bits; then come the bidder, the amount and the moment.
    bids = [(key, value[:32]) for key, value in (line.split("|") for line in shown.splitlines())]
    wanted = [
        ("0000000000100001", "000000000000000200000000000001F4"),
        ("0000000000100002", "00000000000000020000000000000258"),
        ("0000000000300001", "000000000000000200000000000002BC"),
    ]
    if bids != wanted:
        raise Wrong(f"sqlite3 shows the bids {bids}")


def rows_of_others_are_told(service):
    """Counters that are spent, and a row that spells no item, put there by another program."""
    if not sqlite3:
        return
    last = (4_294_967_295).to_bytes(8, "big")
    for key in (1, 2, 3):
        service.put(3, key, last)
    service.put(4, 7, b"no item")
    service.start()
    ann = Browser(service.port)
    expect(ann.send("signin", name="ann", password="a long walk by the sea"), 200, "Welcome ann")
    expect(ann.get("/item/7"), 500, "Bad row 4 7")
    expect(ann.send("category", name="Maps"), 409, "No more numbers")
    spent = ann.send("sell", title="Atlas", category=1, start=1, buy_now=0, hours=1)
    expect(spent, 409, "No more numbers")
    expect(Browser(service.port).send("register", name="dot", password="x"), 409, "No more numbers")
    service.kill()


def check(program, room):
    """An afternoon, each refusal, and what is found behind a crash."""
    service = Service(program, room).start()
    ann, ben = sales(service)
    texts_are_of_the_key(service, ann)
    bytes_are_refused(service)
    forms_are_refused(service, ann, ben)
    what_is_of_another_start_is_refused(service, ben)
    rows_of_others_are_told(service)
    return f"an afternoon of two customers and {len(BYTES) + len(FIELDS) + len(RULES)} refusals"
