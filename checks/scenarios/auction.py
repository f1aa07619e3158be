"""The auction, stated again from docs/AUCTION.md and apart from the program: what each of its sixteen actions reads,
refuses, writes and shows.

An action is a generator. It yields what it would do to rows, ("read", T, K), ("list", T) or ("put", T, K, BYTES), is
sent what a read or a list gave, and returns its page: a status, a heading, lines, and the user of the session that it
sets, or None where the session stays."""

import hashlib

LAST = 2**32 - 1
LAST_OF_ONE = 2**20 - 1
HOUR = 3_600_000
PAGE = 16
OWNER = {1: "Users", 2: "Users", 3: "Numbers", 4: "Items", 5: "Categories", 6: "Bids", 7: "Items", 8: "Feedback"}
OWNER |= {9: "Items"}
THROUGH = {"bid": "Bids", "buy": "Purchases", "close": "Purchases", "feedback": "Feedback"}
# The fields of each action, in order, and of each its least and its most: of a text in bytes.
ID = (1, LAST)
NAMED = {"name": (1, 24), "password": (1, 72)}
FIELDS = {
    "register": NAMED,
    "signin": NAMED,
    "category": {"name": (1, 40)},
    "sell": {"title": (1, 80), "category": ID, "start": (1, 4 * 10**9), "buy_now": (0, 4 * 10**9), "hours": (1, 720)},
    "bid": {"item": ID, "amount": (1, 4 * 10**9)},
    "buy": {"item": ID},
    "close": {"item": ID},
    "feedback": {"item": ID, "good": (0, 1), "text": (0, 200)},
    "signout": {},
}
TEXTS = ("name", "password", "title", "text")


def u64(number):
    return number.to_bytes(8, "big")


def text16(text):
    data = text.encode()
    return len(data).to_bytes(2, "big") + data


def word(data, at):
    return int.from_bytes(data[at : at + 8], "big")


def title_of(data, at):
    return data[at + 2 : at + 2 + int.from_bytes(data[at : at + 2], "big")].decode()


class User:
    """A row of table 1."""

    def __init__(self, data):
        self.name = title_of(data, 0)
        at = 2 + len(self.name.encode())
        self.salt, self.digest = data[at : at + 8], data[at + 8 : at + 40]
        counts = data[at + 40 : at + 52]
        self.good, self.bad, self.items = (int.from_bytes(counts[it : it + 4], "big") for it in (0, 4, 8))

    def row(self):
        counts = b"".join(it.to_bytes(4, "big") for it in (self.good, self.bad, self.items))
        return text16(self.name) + self.salt + self.digest + counts


class Item:
    """A row of table 4."""

    WORDS = ("seller", "category", "start", "buy_now", "best", "bidder")

    def __init__(self, data):
        self.state, self.given, self.title = data[0], data[69], title_of(data, 70)
        for at, name in enumerate(self.WORDS):
            setattr(self, name, word(data, 1 + 8 * at))
        self.bids, self.ends, self.buyer = int.from_bytes(data[49:53], "big"), word(data, 53), word(data, 61)

    def row(self):
        words = b"".join(u64(getattr(self, name)) for name in self.WORDS)
        back = u64(self.ends) + u64(self.buyer) + bytes([self.given]) + text16(self.title)
        return bytes([self.state]) + words + self.bids.to_bytes(4, "big") + back

    def price(self):
        return self.best or self.start


class Call:
    """Who asks, when, with which random word and which token for a form, and the fields."""

    def __init__(self, user, now, fresh, token, fields):
        self.user, self.now, self.fresh, self.token, self.fields = user, now, fresh, token, fields

    def of(self, name):
        return self.fields[name]


def page(heading, *lines):
    return 200, heading, lines, None


def refused(heading, status=409):
    return status, heading, (), None


SIGN_IN, NOT_THERE = refused("Sign in first", 403), refused("Not there", 404)
NO_MORE, NOT_ALLOWED = refused("No more numbers"), refused("Not allowed", 403)
WRONG = refused("Wrong name or password", 403)


def para(text):
    return "para", text


def link(url, text):
    return "link", url, text


def home(call):
    yield from ()
    return page("Auctions", para(f"User {call.user}" if call.user else "Signed out"), link("/categories", "Categories"))


def counted(key):
    """What a counter has come to."""
    found = yield "read", 3, key
    return word(found, 0) if found else 0


def name_key(name):
    return word(hashlib.sha256(name.encode()).digest(), 0)


def digest(salt, password):
    return hashlib.sha256(salt + password.encode()).digest()


def register(call):
    name, key = call.of("name"), name_key(call.of("name"))
    if (yield "read", 2, key):
        return refused("Name taken")
    number = 1 + (yield from counted(1))
    if number > LAST:
        return NO_MORE
    yield "put", 3, 1, u64(number)
    salt = u64(call.fresh)
    yield "put", 1, number, text16(name) + salt + digest(salt, call.of("password")) + bytes(12)
    yield "put", 2, key, text16(name) + u64(number)
    return 200, f"Welcome {name}", (), number


def signin(call):
    name = call.of("name")
    found = yield "read", 2, name_key(name)
    if not found or title_of(found, 0) != name:
        return WRONG
    number = word(found, len(found) - 8)
    row = yield "read", 1, number
    if not row or User(row).digest != digest(User(row).salt, call.of("password")):
        return WRONG
    return 200, f"Welcome {name}", (), number


def signout(call):
    yield from ()
    return 200, "Signed out", (), 0


def categories(call):
    rows = yield "list", 5
    return page("Categories", *(link(f"/category/{key}", title_of(data, 0)) for key, data in rows))


def category(call):
    if not call.user:
        return SIGN_IN
    if call.user != 1:
        return NOT_ALLOWED
    number = 1 + (yield from counted(3))
    if number > LAST:
        return NO_MORE
    yield "put", 3, 3, u64(number)
    yield "put", 5, number, text16(call.of("name"))
    return page(f"Category {number}")


def browse(call):
    number = call.of("id")
    found = yield "read", 5, number
    if not found:
        return NOT_THERE
    count, first = (yield from counted(2**32 + number)), PAGE * call.of("page") + 1
    lines = []
    for n in range(first, min(first + PAGE - 1, count) + 1):
        entry = yield "read", 7, number * 2**32 + n
        row = (yield "read", 4, word(entry, 0)) if entry else None
        if not row:
            return NOT_THERE
        lines.append(link(f"/item/{word(entry, 0)}", f"{Item(row).title}, {Item(row).price()}"))
    return page(title_of(found, 0), *lines)


def item(call):
    found = yield "read", 4, call.of("id")
    seller = (yield "read", 1, Item(found).seller) if found else None
    if not seller:
        return NOT_THERE
    it = Item(found)
    state = (f"Running until {it.ends}", "Closed", f"Sold to user {it.buyer}")[it.state]
    return page(it.title, para(f"Seller {User(seller).name}"), para(f"Price {it.price()}"), para(state))


def user(call):
    found = yield "read", 1, call.of("id")
    if not found:
        return NOT_THERE
    return page(User(found).name, para(f"Good {User(found).good}"), para(f"Bad {User(found).bad}"))


def about(call):
    if not call.user:
        return SIGN_IN
    found = yield "read", 1, call.user
    if not found:
        return NOT_THERE
    lines = []
    for n in range(User(found).items, max(User(found).items - PAGE, 0), -1):
        own = yield "read", 9, call.user * 2**32 + n
        row = (yield "read", 4, word(own, 0)) if own else None
        if not row:
            return NOT_THERE
        lines.append(link(f"/item/{word(own, 0)}", Item(row).title))
    return page(User(found).name, *lines)


def sell(call):
    if not call.user:
        return SIGN_IN
    kind, start, buy_now = call.of("category"), call.of("start"), call.of("buy_now")
    if 0 < buy_now < start:
        return refused("Bad field buy_now", 400)
    if not (yield "read", 5, kind):
        return refused("No such category")
    number = 1 + (yield from counted(2))
    if number > LAST:
        return NO_MORE
    entry = 1 + (yield from counted(2**32 + kind))
    if entry > LAST:
        return NO_MORE
    found = yield "read", 1, call.user
    if not found:
        return NOT_THERE
    seller = User(found)
    seller.items += 1
    if seller.items > LAST:
        return NO_MORE
    it = Item(bytes(70) + text16(call.of("title")))
    it.seller, it.category, it.start, it.buy_now = call.user, kind, start, buy_now
    it.ends = call.now + call.of("hours") * HOUR
    yield "put", 3, 2, u64(number)
    yield "put", 3, 2**32 + kind, u64(entry)
    yield "put", 4, number, it.row()
    yield "put", 7, kind * 2**32 + entry, u64(number)
    yield "put", 1, call.user, seller.row()
    yield "put", 9, call.user * 2**32 + seller.items, u64(number)
    return page(f"Item {number}")


def bid(call):
    if not call.user:
        return SIGN_IN
    number, amount = call.of("item"), call.of("amount")
    found = yield "read", 4, number
    if not found:
        return NOT_THERE
    it = Item(found)
    if it.state or call.now >= it.ends:
        return refused("Auction over")
    if it.seller == call.user:
        return refused("Own item")
    if amount <= it.best or amount < it.start:
        return refused("Bid too low")
    if it.bids >= LAST_OF_ONE:
        return NO_MORE
    it.best, it.bidder, it.bids = amount, call.user, it.bids + 1
    yield "put", 6, number * 2**20 + it.bids, u64(call.user) + u64(amount) + u64(call.now)
    yield "put", 4, number, it.row()
    return page(f"Bid {it.bids} on item {number}")


def buy(call):
    if not call.user:
        return SIGN_IN
    number = call.of("item")
    found = yield "read", 4, number
    if not found:
        return NOT_THERE
    it = Item(found)
    if it.state or call.now >= it.ends:
        return refused("Auction over")
    if it.seller == call.user:
        return refused("Own item")
    if not it.buy_now or it.best >= it.buy_now:
        return refused("Not for sale")
    it.state, it.buyer = 2, call.user
    yield "put", 4, number, it.row()
    return page(f"Bought item {number}")


def close(call):
    if not call.user:
        return SIGN_IN
    number = call.of("item")
    found = yield "read", 4, number
    if not found:
        return NOT_THERE
    it = Item(found)
    if it.seller != call.user:
        return NOT_ALLOWED
    if it.state:
        return refused("Auction over")
    it.state, it.buyer = (2, it.bidder) if it.best else (1, it.buyer)
    yield "put", 4, number, it.row()
    return page(f"Closed item {number}")


def feedback(call):
    if not call.user:
        return SIGN_IN
    number = call.of("item")
    found = yield "read", 4, number
    if not found:
        return NOT_THERE
    it = Item(found)
    if it.state != 2:
        return refused("Not sold")
    if call.user not in (it.seller, it.buyer):
        return NOT_ALLOWED
    side, other = (1, it.seller) if call.user == it.buyer else (2, it.buyer)
    if it.given & side:
        return refused("Already given")
    row = yield "read", 1, other
    if not row:
        return NOT_THERE
    whom = User(row)
    count = whom.good + whom.bad
    if count >= LAST_OF_ONE:
        return NO_MORE
    good = call.of("good")
    whom.good, whom.bad = whom.good + good, whom.bad + 1 - good
    it.given |= side
    said = u64(call.user) + u64(number) + bytes([good]) + text16(call.of("text"))
    yield "put", 8, other * 2**20 + count + 1, said
    yield "put", 1, other, whom.row()
    yield "put", 4, number, it.row()
    return page("Thanks")


def form(call):
    yield from ()
    kind = call.of("kind")
    url = "/categories" if kind == "category" else f"/{kind}"
    lines = [("form", url, call.token, tuple(FIELDS[kind]))]
    return 200, f"Form {kind}", lines, None if call.user else 0


ACTIONS = {it.__name__: it for it in (home, register, signin, signout, categories, category, browse, item, user, about)}
ACTIONS |= {it.__name__: it for it in (sell, bid, buy, close, feedback, form)}


def text_length(action, call):
    """How many bytes the text of an action's call has."""
    fields = [call.of(name) for name in call.fields]
    return 97 + sum(2 + len(it.encode()) if isinstance(it, str) else 8 for it in fields)


def escaped(text):
    for letter, name in (("&", "amp"), ("<", "lt"), (">", "gt"), ('"', "quot"), ("'", "#39")):
        text = text.replace(letter, f"&{name};")
    return text


def shown(line):
    """A line of a page as HTML."""
    kind, *parts = line
    if kind == "para":
        return f"<p>{escaped(parts[0])}</p>\n"
    if kind == "link":
        return f'<p><a href="{escaped(parts[0])}">{escaped(parts[1])}</a></p>\n'
    url, token, names = parts
    fields = "".join(f'<label>{name} <input name="{name}"></label>\n' for name in names)
    front = f'<form method="post" action="{url}">\n<input type="hidden" name="token" value="{token}">\n'
    return f"{front}{fields}<button>Send</button>\n</form>\n"


def html(heading, lines=()):
    """The bytes of a page."""
    told = escaped(heading)
    front = f"<!doctype html>\n<title>{told}</title>\n<h1>{told}</h1>\n"
    return (front + "".join(shown(line) for line in lines)).encode()
