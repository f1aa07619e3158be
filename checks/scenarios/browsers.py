"""The lines of the site, stated again from docs/SCENARIOS.md and docs/HTTP.md and apart from the program: what each
writes, byte for byte. A request's way is a generator that stops before each of its steps, so that the steps of
connections, callers and lines about sessions can be made in any order."""

import base64
import hashlib
import hmac
from urllib.parse import parse_qsl, urlsplit

import auction
from auction import OWNER, THROUGH, word

LEASE, RENEWAL, GRACE, STRAYS, TRIES = 1_800_000, 900_000, 60_000, 64, 3
GROUP = {"Web": 0, "Users": 1, "Feedback": 1, "Numbers": 2, "Items": 3, "Bids": 3, "Purchases": 3, "Categories": 4}
REASON = {200: "OK", 400: "Bad Request", 403: "Forbidden", 404: "Not Found", 405: "Method Not Allowed", 409: "Conflict"}
REASON |= {415: "Unsupported Media Type", 503: "Service Unavailable"}
PLAIN = {"/": "home", "/categories": "categories", "/about": "about"}
OF_ID = {"category": "browse", "item": "item", "user": "user"}
KINDS = ("register", "signin", "signout", "category", "sell", "bid", "buy", "close", "feedback")


class Brick:
    """A brick, the way to it, and its window."""

    def __init__(self, number):
        self.number, self.incarnation, self.kept, self.swept = number, 1, {}, 0
        self.to_mute = self.to_lose = self.held = 0
        self.window, self.made, self.queue = 4, [], []

    def is_open(self):
        return self.held < self.window

    def ask(self, nonce, name, value=None):
        """An ask comes in: to store a value under a name, or to give the one that it has."""
        if self.to_mute:
            self.to_mute -= 1
            return
        if value is not None:
            self.kept[name] = value
        found = self.kept.get(name)
        self.made.append((nonce, found, self.incarnation, self.swept))
        if self.to_lose:
            self.to_lose -= 1
        else:
            self.queue.append(self.made[-1])

    def crash(self):
        self.kept, self.swept, self.incarnation = {}, 0, self.incarnation + 1

    def sweep(self, moment):
        self.kept = {name: it for name, it in self.kept.items() if it[1] + GRACE >= moment}
        self.swept = max(self.swept, moment)

    def spend(self, answered):
        self.held -= 1
        self.window = min(self.window + 1, 64) if answered else max(self.window // 2, 1)


class Ear:
    """What one call hears of a brick that it asked."""

    def __init__(self, brick, nonce):
        self.brick, self.nonce, self.strays, self.outcome = brick, nonce, 0, None

    def hear(self):
        """Takes one reply that waits, or finds that none does."""
        if not self.brick.queue:
            self.outcome = "silent"
            return
        reply = self.brick.queue.pop(0)
        if reply[0] == self.nonce:
            self.outcome = reply
            return
        self.strays += 1
        if self.strays == STRAYS:
            self.outcome = "strayed"

    def has_answer(self):
        return isinstance(self.outcome, tuple)


class Cookie:
    """A cookie, by the fields of its text."""

    def __init__(self, key, boot, serial, expiry, holders):
        self.key, self.boot, self.serial, self.expiry, self.holders = key, boot, serial, expiry, holders

    def name(self):
        return self.key, self.boot, self.serial

    def text(self, secret):
        holders = b"".join(brick.to_bytes(2, "big") + it.to_bytes(8, "big") for brick, it in self.holders)
        version = (1).to_bytes(2, "big") + self.boot.to_bytes(4, "big") + self.serial.to_bytes(8, "big")
        fields = b"\x01" + self.key + version + self.expiry.to_bytes(8, "big") + bytes([len(self.holders)]) + holders
        tag = hmac.new(secret, fields, hashlib.sha256).digest()
        return base64.urlsafe_b64encode(fields + tag).decode().rstrip("=")


class Write:
    """A session's value that is written to bricks."""

    def __init__(self, site, key, serial, value, expiry):
        self.site, self.key, self.serial, self.value, self.expiry = site, key, serial, value, expiry
        self.ears, self.full = [], []

    def until_stored(self):
        """Its steps until two bricks have stored it, or all were heard."""
        bricks, nonce = self.site.bricks, (self.site.boot, self.serial)
        yield
        around = [bricks[(self.serial + more) % len(bricks)] for more in range(len(bricks))]
        chosen = [brick for brick in around if brick.is_open()][:3]
        if len(chosen) < 2:
            self.full = [brick for brick in bricks if not brick.is_open()]
            return None
        for brick in chosen:
            brick.held += 1
        self.ears = [Ear(brick, nonce) for brick in chosen]
        for brick in chosen:
            yield
            brick.ask(nonce, (self.key, *nonce), (self.value, self.expiry))
        while not self.cookie() and self.open():
            yield
            self.open()[0].hear()
        return self.cookie()

    def settle(self):
        """Its steps behind that: the other bricks are heard, and all passes are spent."""
        while self.open():
            yield
            self.open()[0].hear()
        if self.ears:
            yield
            self.give_back()

    def give_back(self):
        """Spends its passes. A brick that was not heard counts as silent."""
        for ear in self.ears:
            ear.brick.spend(ear.has_answer())
        self.ears = []

    def open(self):
        return [ear for ear in self.ears if ear.outcome is None]

    def cookie(self):
        stored = [(ear.brick.number, ear.outcome[2]) for ear in self.ears if ear.has_answer()][:2]
        return Cookie(self.key, self.site.boot, self.serial, self.expiry, stored) if len(stored) == 2 else None


def read(site, cookie, serial, causes):
    """The steps of a read by a cookie. Its value, or None; then why, for each brick."""
    nonce = (site.boot, serial)
    for number, incarnation in cookie.holders:
        ear = Ear(site.bricks[number - 1], nonce)
        yield
        ear.brick.ask(nonce, cookie.name())
        while ear.outcome is None:
            yield
            ear.hear()
        if not ear.has_answer():
            causes.append(f"{number}:{ear.outcome}")
            continue
        _, found, now, swept = ear.outcome
        if found:
            return found[0]
        causes.append(f"{number}:crashed/{now}" if now != incarnation else f"{number}:swept/{swept}")
    return None


def token_of(secret, key, boot, serial):
    number = boot.to_bytes(4, "big") + serial.to_bytes(8, "big")
    return (number + hmac.new(secret, b"form" + key + number, hashlib.sha256).digest()[:16]).hex()


class Try:
    """A call in the container: of a caller, or a try of a request."""

    def __init__(self, site):
        self.site, self.at, self.rows = site, len(site.journal), dict(site.rows)
        self.entered, self.marks, self.writes, self.once = {}, {}, {}, False

    def stale(self):
        """The first group that it entered which has gone down since, with its two generations."""
        for group, had in self.entered.items():
            if self.site.downs[group] > had:
                return group, had, self.site.downs[group]
        return None

    def told_stale(self, number):
        """What a step of a caller writes that is refused for that, or nothing."""
        return [f"c{number} " + "revoked group {} had {} now {}".format(*self.stale())] if self.stale() else []

    def down(self, name):
        """The place from which on the group of a component is down, if it is."""
        return self.site.down.get(GROUP[name])

    def enter(self, name):
        self.entered.setdefault(GROUP[name], self.site.downs[GROUP[name]])

    def read(self, table, key):
        if (table, key) in self.writes:
            return self.writes[table, key]
        self.marks.setdefault((table, key), None)
        return self.rows.get((table, key))

    def list(self, table):
        self.marks.setdefault((table, None), None)
        rows = {**self.rows, **self.writes}
        return sorted((key, data) for (other, key), data in rows.items() if other == table)

    def conflict(self):
        """The first thing that it read, and then that it writes, which was written since it began."""
        for table, key in (*self.marks, *sorted(self.writes)):
            newest = self.site.newest.get((table, key), 0)
            if newest > self.at:
                what = f"table {table}" if key is None else f"row {table} {key}"
                return f"conflict {what} at {self.at} newest {newest}"
        return None

    def bytes(self):
        """How many bytes of rows its entry has, written and read."""
        read = sum(len(self.rows.get(mark, b"")) for mark in self.marks if mark[1] is not None)
        return read + sum(map(len, self.writes.values()))

    def commit(self, number, extra=0, done=None):
        """What refuses its commit, or None where it has committed."""
        site = self.site
        if number in site.done:
            return "already"
        stale = self.stale()
        if stale:
            return "revoked group {} had {} now {}".format(*stale)
        if self.conflict():
            return self.conflict()
        if site.is_full(1, self.bytes() + extra):
            return f"full {len(site.journal) + site.ups()} {site.bytes}"
        site.done[number] = (len(site.journal), done)
        site.journal.append(f"commit {number[0]}:{number[1]} writes {len(self.writes)}")
        site.bytes += self.bytes() + extra
        site.rows.update(self.writes)
        for table, key in self.writes:
            site.newest[table, key] = site.newest[table, None] = len(site.journal)
        return None


class Request:
    """A request, off its bytes."""

    def __init__(self, head, body):
        first, *self.fields = head.decode().split("\r\n")
        self.method, self.target, self.version = first.split(" ")
        self.body = body.decode()

    def values(self, name):
        """The values of the fields of this name, in order."""
        pairs = [it.split(":", 1) for it in self.fields]
        return [value.strip(" \t") for known, value in pairs if known.lower() == name]

    def cookie(self):
        pairs = [it.strip(" ") for value in self.values("cookie") for it in value.split(";")]
        return next((it.removeprefix("crash=") for it in pairs if it.startswith("crash=")), None)

    def closes(self):
        return self.version == "HTTP/1.0" or "close" in self.values("connection")


def is_id(text):
    return text.isdigit() and text[0] != "0" and int(text) <= auction.LAST


def route(target):
    """The actions at a path by GET and by POST, and the fields that the path has."""
    path = urlsplit(target).path
    words = path.split("/")[1:]
    if path in PLAIN:
        return PLAIN[path], "category" if path == "/categories" else None, {}
    if len(words) == 1 and words[0] in KINDS and words[0] != "category":
        return None, words[0], {}
    if len(words) == 2 and words[0] in OF_ID and is_id(words[1]):
        return OF_ID[words[0]], None, {"id": int(words[1])}
    if len(words) == 2 and words[0] == "form" and words[1] in KINDS:
        return "form", None, {"kind": words[1]}
    return None, None, None


def field(name, pairs, least, most):
    """A field of a form, or None where it is none."""
    text = next((value for known, value in pairs if known == name), None)
    if text is None:
        return None
    if name in auction.TEXTS:
        return text if least <= len(text.encode()) <= most else None
    is_number = text.isdigit() and text.isascii() and (text == "0" or text[0] != "0") and len(text) < 20
    return int(text) if is_number and least <= int(text) <= most else None


def is_name(text):
    return all(it.isascii() and (it.isalnum() or it == "_") for it in text)


class Order:
    """A request that is ordered, and all that is drawn for it."""

    def __init__(self, site, action, cookie, number, fields):
        self.action, self.cookie, self.now = action, cookie, site.now
        self.number = number or (site.boot, site.draw())
        shows = action == "form"
        token = site.draw() if shows else None
        key = cookie.key if cookie else site.random() + site.random() if shows else bytes(16)
        self.key, fresh = key, int.from_bytes(site.random(), "big")
        self.reads = site.draw() if cookie else None
        self.writes = site.draw()
        shown = token_of(site.secret, key, site.boot, token) if shows else ""
        self.call = auction.Call(0, site.now, fresh, shown, fields)


class Connection:
    """A connection: the requests that have come in, and the one that is open."""

    def __init__(self, site, number):
        self.site, self.number, self.received, self.requests, self.ended = site, number, b"", [], False
        self.course = self.write = self.closing = None

    def feed(self, data):
        """Takes bytes, of which each whole request is one to be served."""
        self.received += data
        while b"\r\n\r\n" in self.received:
            head, _, rest = self.received.partition(b"\r\n\r\n")
            length = int(next(iter(Request(head, b"").values("content-length")), 0))
            if len(rest) < length:
                return
            self.requests.append(Request(head, rest[:length]))
            self.received = rest[length:]

    def rests(self):
        return not (self.course or self.requests or self.closing or self.ended)

    def step(self):
        """One step. What it writes."""
        if not self.course and (self.closing or self.ended and not self.requests):
            del self.site.seats[self.number]
            return [f"s{self.number} {'closed' if self.closing or not self.received else 'ended cut'}"]
        if not self.course and self.requests:
            self.course = self.serve(self.requests.pop(0))
            next(self.course)
        if not self.course:
            return []
        self.site.steps += 1
        out = self.site.out = []
        try:
            next(self.course)
        except StopIteration:
            self.course = None
        return out

    def run(self):
        wrote = []
        while self.number in self.site.seats and not self.rests():
            wrote += self.step()
        return wrote

    def respond(self, request, status, heading, lines=(), cookie="", retry=False, allow=None):
        """Puts a response out. The cookie is its text, None where it is cleared, and empty where none is set."""
        page = auction.html(heading, lines)
        head = [f"HTTP/1.1 {status} {REASON[status]}", "Content-Type: text/html; charset=utf-8"]
        head.append(f"Content-Length: {len(page)}")
        if cookie:
            head.append(f"Set-Cookie: crash={cookie}; Path=/; Max-Age=1800; HttpOnly")
        if cookie is None:
            head.append("Set-Cookie: crash=; Path=/; Max-Age=0; HttpOnly")
        head += ["Retry-After: 2"] * retry + [f"Allow: {allow}"] * bool(allow)
        head += ["Connection: close"] * request.closes() + ["", ""]
        response = "\r\n".join(head).encode() + page * (request.method != "HEAD")
        self.site.out.append(f"s{self.number} out {response.hex()}")
        self.closing = request.closes()

    def decide(self, request):
        """An order; or the status and the heading of a refusal, and which methods there are."""
        get, post, fields = route(request.target)
        if fields is None:
            return 404, "Not there", None
        action = get if request.method in ("GET", "HEAD") else post if request.method == "POST" else None
        if not action:
            return 405, "Method not allowed", ", ".join(["GET, HEAD"] * bool(get) + ["POST"] * bool(post))
        if any(it.lower().startswith("multipart/") for it in request.values("content-type")):
            return 415, "Form not understood", None
        cookie = self.site.cookies.get(request.cookie())
        query = urlsplit(request.target).query if request.method != "POST" else request.body
        pairs = parse_qsl(query, keep_blank_values=True)
        wanted = auction.FIELDS[action] if request.method == "POST" else {}
        if action == "browse":
            wanted = {"page": (0, 9999)}
        for name, (least, most) in wanted.items():
            missing = name == "page" and not any(known == "page" for known, _ in pairs)
            value = 0 if missing else field(name, pairs, least, most)
            if value is None or name == "name" and action != "category" and not is_name(value):
                return 400, f"Bad field {name}", None
            fields[name] = value
        return self.with_token(request, action, cookie, pairs, fields)

    def with_token(self, request, action, cookie, pairs, fields):
        """The decision by the token of a POST, which is looked at last."""
        number = None
        if request.method == "POST":
            token = next((value for name, value in pairs if name == "token"), "")
            is_token = len(token) == 56 and all(it in "0123456789abcdef" for it in token)
            boot, serial = (int(token[:8], 16), int(token[8:24], 16)) if is_token else (0, 0)
            if not is_token or not cookie or token != token_of(self.site.secret, cookie.key, boot, serial):
                return 400, "Bad field token", None
            if boot != self.site.boot:
                return 409, "Form is old", None
            number = boot, serial
        return Order(self.site, action, cookie, number, fields)

    def serve(self, request):
        """The way of a request."""
        yield
        order = self.decide(request)
        if isinstance(order, tuple):
            status, heading, allow = order
            yield
            return self.respond(request, status, heading, allow=allow)
        session, heading = None, None
        if order.cookie and self.site.now > order.cookie.expiry:
            heading = "Session expired"
        elif order.cookie:
            session = yield from read(self.site, order.cookie, order.reads, [])
            heading = "Session lost" if session is None else None
        if heading:
            yield
            return self.respond(request, 403, heading, cookie=None)
        is_value = session and len(session) == 16 and word(session, 0) <= auction.LAST
        order.call.user = word(session, 0) if is_value else 0
        page = yield from self.tries(order)
        if page is None:
            yield
            return self.respond(request, 503, "Try again", retry=True)
        yield from self.answer(request, order, session, page)

    def answer(self, request, order, session, page):
        """A page, whose session is written first where it is set, or kept with less than half of its lease left."""
        status, heading, lines, user = page
        value = session if user is None else auction.u64(user) + auction.u64(order.now)
        due = order.cookie and order.cookie.expiry - order.now < RENEWAL
        if user is None and not due:
            yield
            return self.respond(request, status, heading, lines)
        self.write = Write(self.site, order.key, order.writes, value, order.now + LEASE)
        cookie = yield from self.write.until_stored()
        yield
        if cookie:
            text = cookie.text(self.site.secret)
            self.site.cookies[text] = cookie
            self.respond(request, status, heading, lines, cookie=text)
        else:
            self.respond(request, 503, "Try again", retry=True)
        yield from self.write.settle()
        self.write = None

    def tries(self, order):
        """The tries of an order. Its page, or None where it is to be tried again later."""
        for _ in range(TRIES):
            yield
            one = Try(self.site)
            page = yield from self.attempt(one, order)
            if page != "again":
                return page
            if one.once and one.stale():
                return None
        return None

    def attempt(self, one, order):
        """A try. Its page; None where it met a group that is down, or the journal is full, upon which it is decided to
        reboot the process; else that it is void."""
        program = steps_of(order.action, order.call)
        answer = None
        while True:
            try:
                what, *more = program.send(answer)
            except StopIteration as end:
                page = end.value
                break
            yield
            if one.stale():
                return "again"
            if what == "enter" and one.down(more[0]) is not None:
                return None
            answer = self.access(one, what, more)
            one.once = one.once or order.action == "buy" and more == ["Purchases"]
        yield
        set_session = 0 if page[3] is None else 16
        extra = auction.text_length(order.action, order.call) + len(auction.html(page[1], page[2])) + set_session
        refusal = one.commit(order.number, extra, page)
        if refusal == "already":
            return self.site.done[order.number][1]
        if refusal and refusal.startswith("full "):
            self.site.out.append("decide process")
            return None
        one.once = one.once and bool(refusal) and refusal.startswith("revoked ")
        return "again" if refusal else page

    @staticmethod
    def access(one, what, more):
        if what == "enter":
            return one.enter(more[0])
        if what == "put":
            one.writes[more[0], more[1]] = more[2]
        return getattr(one, what)(*more) if what in ("read", "list") else None


def steps_of(name, call):
    """The steps of an action's program: it enters Web, and what it goes through; for each access it enters the owner of
    the table, unless it is in it, and leaves it; and at last it leaves all."""
    through = THROUGH.get(name)
    for component in ["Web"] + [through] * bool(through):
        yield "enter", component
    action, found = auction.ACTIONS[name](call), None
    while True:
        try:
            access = action.send(found)
        except StopIteration as end:
            page = end.value
            break
        inside = OWNER[access[1]] == through
        if not inside:
            yield "enter", OWNER[access[1]]
        found = yield access
        if not inside:
            yield ("exit",)
    for _ in ["Web"] + [through] * bool(through):
        yield ("exit",)
    return page


class Site:
    """The site, its bricks, the sessions and callers of the scenario's own, and its connections."""

    def __init__(self):
        self.bricks = [Brick(number) for number in (1, 2, 3)]
        self.entries, self.most, self.secret = 262_144, 268_435_456, bytes(32)
        self.now, self.boot, self.words, self.rows, self.steps = 0, 1, 0, {}, 0
        self.cookies, self.own = {}, {}
        self.begin_boot()

    def begin_boot(self):
        self.serial, self.journal, self.bytes, self.done, self.newest = 0, [], 0, {}, {}
        self.downs, self.down, self.scopes = dict.fromkeys(range(5), 0), {}, {}
        self.seats, self.callers = {}, {}

    def draw(self):
        self.serial += 1
        return self.serial - 1

    def random(self):
        self.words += 1
        return auction.u64(self.words)

    def ups(self):
        """The places that are kept for the ups to come."""
        return len(self.scopes)

    def is_full(self, entries, more):
        return len(self.journal) + self.ups() + entries > self.entries or self.bytes + more > self.most

    # Lines, each of which answers what it writes.

    def head(self, text):
        """A line of the head that says something about it."""
        word, *more = text.split(" ")
        if word == "limit":
            self.entries, self.most = map(int, more)
        if word == "key":
            self.secret = bytes.fromhex(more[0])

    def line(self, text):
        """What an event line writes."""
        word, *more = text.split(" ")
        whole = more[: 1 if word in ("bytes", "write") else 3]
        numbers = [int(it.lstrip("sck")) for it in whole if it.lstrip("sck").isdigit()]
        return getattr(self, f"on_{word}")(*numbers, *more[len(numbers) :]) or []

    def on_now(self, moment):
        self.now = moment

    def on_conn(self, number):
        self.seats[number] = Connection(self, number)

    def on_bytes(self, number, data):
        self.seats[number].feed(bytes.fromhex(data.replace("-", "")))

    def on_end(self, number):
        self.seats[number].ended = True

    def on_step(self, number):
        return self.seats[number].step()

    def on_run(self, number):
        return self.seats[number].run()

    def on_begin(self, number):
        self.callers[number] = Try(self)

    def on_enter(self, number, name):
        call = self.callers[number]
        if call.stale():
            return call.told_stale(number)
        if call.down(name) is not None:
            return [f"c{number} sentinel group {GROUP[name]} down {call.down(name)}"]
        call.enter(name)

    def on_exit(self, number):
        return self.callers[number].told_stale(number)

    def on_read(self, number, table, key):
        call = self.callers[number]
        found = None if call.stale() else call.read(table, key)
        return call.told_stale(number) or [f"c{number} row {'none' if found is None else found.hex() or '-'}"]

    def on_list(self, number, table):
        call = self.callers[number]
        rows = [] if call.stale() else call.list(table)
        told = "".join(f" {key}={data.hex() or '-'}" for key, data in rows)
        return call.told_stale(number) or [f"c{number} list {len(rows)}{told}"]

    def on_put(self, number, table, key, data):
        call = self.callers[number]
        if not call.stale():
            call.writes[table, key] = bytes.fromhex(data.replace("-", ""))
        return call.told_stale(number)

    def on_commit(self, number):
        refusal = self.callers.pop(number).commit((self.boot, 2**63 + number))
        if refusal == "already":
            refusal = f"already {self.done[self.boot, 2**63 + number][0]}"
        return [f"c{number} {refusal or f'committed {len(self.journal) - 1}'}"]

    def on_drop(self, number):
        del self.callers[number]

    def on_down(self, scope):
        groups = range(5) if scope == "app" else [GROUP[scope]]
        for group in groups:
            if group in self.down:
                return [f"busy group {group} down {self.down[group]}"]
        if self.is_full(2, 0):
            return [f"full {len(self.journal) + self.ups()} {self.bytes}"]
        self.scopes["app" if scope == "app" else GROUP[scope]] = groups
        for group in groups:
            self.down[group] = len(self.journal)
            self.downs[group] += 1
        return self.turned("down", scope)

    def turned(self, word, scope):
        self.journal.append(f"{word} {'app' if scope == 'app' else f'group {GROUP[scope]}'}")
        return [f"{word} {len(self.journal) - 1}"]

    def on_up(self, scope):
        for group in self.scopes.pop("app" if scope == "app" else GROUP[scope]):
            del self.down[group]
        return self.turned("up", scope)

    def on_reboot(self, scope):
        wrote = self.on_down(scope)
        return wrote + self.on_up(scope) if wrote[0].startswith("down ") else wrote

    def on_reopen(self):
        for number in sorted(self.seats):
            if self.seats[number].write:
                self.seats[number].write.give_back()
        self.boot += 1
        self.begin_boot()
        return [f"boot {self.boot}"]

    def on_table(self):
        return [f"{table} {key} {data.hex() or '-'}" for (table, key), data in sorted(self.rows.items())]

    def on_journal(self):
        return [f"{place} {entry}" for place, entry in enumerate(self.journal)]

    def on_windows(self):
        return ["windows" + "".join(f" {it.number}:{it.window}/{it.held}" for it in self.bricks)]

    def on_write(self, number, data):
        value = bytes.fromhex(data.replace("-", ""))
        write = Write(self, number.to_bytes(16, "big"), self.draw(), value, self.now + LEASE)
        cookie = finished(write.until_stored())
        if write.full:
            return [f"k{number} overload" + "".join(f" {it.number}:{it.window}/{it.held}" for it in write.full)]
        ears = write.ears
        finished(write.settle())
        if not cookie:
            causes = [f" {it.brick.number}:{it.outcome}" for it in ears if not it.has_answer()]
            return [f"k{number} missed{''.join(causes)}"]
        self.own[number] = cookie
        self.cookies[cookie.text(self.secret)] = cookie
        return [f"k{number} version {cookie.serial} bricks {' '.join(str(brick) for brick, _ in cookie.holders)}"]

    def on_fetch(self, number):
        cookie, causes, serial = self.own[number], [], self.draw()
        if self.now > cookie.expiry:
            return [f"k{number} expired {self.now} {cookie.expiry}"]
        value = finished(read(self, cookie, serial, causes))
        return [f"k{number} found {value.hex() or '-'}" if value is not None else f"k{number} lost {' '.join(causes)}"]

    def on_cookie(self, number):
        return [f"k{number} cookie {self.own[number].text(self.secret)}"]

    def on_lose(self, brick, count):
        self.bricks[brick - 1].to_lose += count

    def on_mute(self, brick, count):
        self.bricks[brick - 1].to_mute += count

    def on_repeat(self, brick, reply):
        self.bricks[brick - 1].queue.append(self.bricks[brick - 1].made[reply - 1])

    def on_crash(self, brick):
        self.bricks[brick - 1].crash()

    def on_sweep(self, brick, moment=None):
        self.bricks[brick - 1].sweep(self.now if moment is None else moment)

    def on_values(self, brick):
        return [f"values {brick} {len(self.bricks[brick - 1].kept)}"]

    def on_hold(self, brick):
        it = self.bricks[brick - 1]
        if not it.is_open():
            return [f"closed {brick} {it.window} {it.held}"]
        it.held += 1
        return [f"held {brick} {it.held}"]

    def on_free(self, brick, how):
        self.bricks[brick - 1].spend(how == "answered")


def finished(steps):
    """What is left when all steps were made."""
    while True:
        try:
            next(steps)
        except StopIteration as end:
            return end.value


def played(text):
    """What a scenario of the site writes."""
    site, wrote = Site(), []
    for line in text.splitlines():
        if line.startswith(("limit ", "key ")):
            site.head(line)
        elif line and line != "site" and not line.startswith("#"):
            wrote += site.line(line)
    return "".join(f"{it}\n" for it in wrote)
