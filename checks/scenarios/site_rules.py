"""Scenarios of the site that are made by plain rules, with what browsers.py says that they write, byte for byte:
stories, a reboot, a fault of a brick or the next boot behind each step of a request, other cookies, and afternoons by
chance. Each function of ALL yields pairs of an input and an output. README.md says what each is for."""

import os
import pickle
import re
from urllib.parse import quote_plus

import auction
from browsers import GROUP, KINDS, Site, played
from rules import Chance

TOP = os.path.dirname(os.path.dirname(os.path.dirname(os.path.realpath(__file__))))
COOKIE = re.compile(r"\r\nSet-Cookie: crash=([^;\r]*)")
TOKEN = re.compile(r'name="token" value="([0-9a-f]+)"')
ALPHABET = "ABCDEFGHIJKLMNOPQRSTUVWXYZabcdefghijklmnopqrstuvwxyz0123456789-_"
SCOPES = ("Web", "Users", "Numbers", "Items", "Categories", "app")
SHOWN = ("windows", "table", "journal")


class Play:
    """A scenario as it is made: its lines, what they write, and what the browser of each connection was given."""

    def __init__(self, *head, connections=(1,)):
        self.site, self.lines, self.wrote, self.jars, self.fields = Site(), [*head, "site"], [], {}, []
        for line in head:
            self.site.head(line)
        self.tell(*(f"conn s{number}" for number in connections))

    def tell(self, *lines):
        """Adds lines. What they write."""
        heard = []
        for line in lines:
            self.lines.append(line)
            heard += self.site.line(line)
        for line in heard:
            self.hear(line)
        self.wrote += heard
        return heard

    def hear(self, line):
        """A browser keeps the cookie and the token of an answer."""
        found = re.fullmatch("s([0-9]+) out ([0-9a-f]+)", line)
        if not found:
            return
        response, jar = bytes.fromhex(found[2]).decode(), self.jar(int(found[1]))
        cookie, token = COOKIE.search(response), TOKEN.search(response)
        if cookie:
            jar["cookie"] = cookie[1] or None
        if token:
            jar["token"] = token[1]
        jar["heading"] = re.search("<title>(.*)</title>", response)[1] if "<title>" in response else ""

    def jar(self, seat):
        return self.jars.setdefault(seat, {"cookie": None, "token": "", "heading": ""})

    def request(self, seat, method, target, pairs=None, jar=None, more=()):
        """The bytes of a request by the cookie of a browser; a form has its token, unless it names one."""
        jar = self.jar(seat) if jar is None else jar
        fields, body = [*self.fields, *more], ""
        if jar["cookie"] is not None:
            fields.append(f"Cookie: theme=dark; crash={jar['cookie']}")
        if pairs is not None:
            form = {"token": jar["token"], **pairs}
            body = "&".join(f"{name}={quote_plus(str(value))}" for name, value in form.items() if value is not None)
            fields.append(f"Content-Length: {len(body)}")
        return ("\r\n".join([f"{method} {target} HTTP/1.1", "Host: localhost", *fields, "", ""]) + body).encode()

    def send(self, seat, data):
        self.tell(f"bytes s{seat} {data.hex()}")

    def get(self, seat, target, **more):
        """A page is asked for and answered."""
        self.send(seat, self.request(seat, "GET", target, **more))
        return self.tell(f"run s{seat}")

    def post(self, seat, kind, pairs=None, **more):
        """A form is sent and answered."""
        self.send(seat, self.form(seat, kind, pairs, **more))
        return self.tell(f"run s{seat}")

    def form(self, seat, kind, pairs=None, **more):
        return self.request(seat, "POST", "/categories" if kind == "category" else f"/{kind}", pairs or {}, **more)

    def fill(self, seat, kind, pairs=None):
        """A form is asked for, filled in and sent."""
        self.get(seat, f"/form/{kind}")
        self.post(seat, kind, pairs)

    def register(self, seat, name):
        self.fill(seat, "register", {"name": name, "password": f"{name}'s & <own>"})

    def whole(self):
        return "".join(f"{it}\n" for it in self.lines), "".join(f"{it}\n" for it in self.wrote)

    def headings(self):
        """The status and the heading of each answer so far."""
        responses = [bytes.fromhex(it.split(" ")[2]).decode() for it in self.wrote if " out " in it]
        titles = [(it.split(" ")[1], re.search("<title>(.*)</title>", it)) for it in responses]
        return [(int(status), title[1]) for status, title in titles if title]


def opened(*head, connections=(1, 2)):
    """Ann, who is user 1, offers an atlas, and Ben is user 2."""
    play = Play(*head, connections=connections)
    play.register(1, "ann")
    play.fill(1, "category", {"name": "Books & <maps>"})
    play.fill(1, "sell", ATLAS)
    play.register(2, "ben")
    return play


ATLAS = {"title": 'An "atlas"', "category": 1, "start": 100, "buy_now": 1000, "hours": 24}


# What a browser sends besides.
BROWSER = ["User-Agent: Mozilla/5.0 (X11; Linux x86_64; rv:128.0) Gecko/20100101 Firefox/128.0"]
BROWSER += ["Accept: text/html,application/xhtml+xml,application/xml;q=0.9,*/*;q=0.8"]
BROWSER += ["Accept-Language: en-US,en;q=0.5", "Accept-Encoding: gzip, deflate, br"]
BROWSER += ["Referer: http://localhost:8080/", "Origin: http://localhost:8080"]
BROWSER += ["Connection: keep-alive", "Upgrade-Insecure-Requests: 1", "Sec-Fetch-Dest: document", "Priority: u=0, i"]


# Stories.


def the_example():
    """examples/site.txt gives what the rules say."""
    with open(os.path.join(TOP, "examples", "site.txt"), encoding="ascii") as file:
        text = file.read()
    yield text, played(text)


def ann_and_ben():
    """Ann offers something and Ben buys it, with a reboot of the bidding group before his bid, and a form sent twice:
    17 entries, and each answer is a page."""
    play = Play(connections=(1, 2))
    play.fields = BROWSER
    play.get(1, "/")
    play.register(1, "ann")
    play.fill(1, "category", {"name": "Books"})
    play.fill(1, "sell", {**ATLAS, "title": "Atlas"})
    play.register(2, "ben")
    play.get(2, "/form/bid")
    play.tell("reboot Bids")
    play.post(2, "bid", {"item": 1, "amount": 500})
    play.post(2, "bid", {"item": 1, "amount": 500})
    play.fill(2, "buy", {"item": 1})
    play.fill(2, "feedback", {"item": 1, "good": 1, "text": "Fine"})
    assert {status for status, _ in play.headings()} == {200} and len(play.site.journal) == 17, play.headings()
    assert play.headings().count((200, "Bid 1 on item 1")) == 2
    play.tell(*SHOWN, "end s1", "run s1", "end s2", "run s2")
    yield play.whole()


def bids_are_weighed():
    """A bid that is equal to the greatest is too low, and one cent more is taken; one over the range is no bid, and has
    no entry."""
    play = opened()
    wanted = []
    for amount, told in ((99, "Bid too low"), (100, "Bid 1 on item 1"), (100, "Bid too low"), (101, "Bid 2 on item 1")):
        play.fill(2, "bid", {"item": 1, "amount": amount})
        wanted.append((200 if told.startswith("Bid 1 on") or told.startswith("Bid 2 on") else 409, told))
    entries = len(play.site.journal)
    for amount in (4 * 10**9 + 1, 0, "0101", "", None, 10**30):
        play.fill(2, "bid", {"item": 1, "amount": amount})
        wanted.append((400, "Bad field amount"))
    assert len(play.site.journal) == entries + 6, "a bad field has an entry"
    play.fill(2, "bid", {"item": 1, "amount": 4 * 10**9})
    assert [it for it in play.headings() if not it[1].startswith(("Form", "Welcome", "Category", "Item"))] == [
        *wanted,
        (200, "Bid 3 on item 1"),
    ]
    play.tell(*SHOWN)
    yield play.whole()


def each_refusal_of_each_action():
    """Each form by nobody, by who may not send it, and where it comes too late."""
    play = opened(connections=(1, 2, 3))
    forms = {"category": {"name": "x"}, "sell": ATLAS, "bid": {"item": 1, "amount": 500}, "buy": {"item": 1}}
    forms |= {"close": {"item": 1}, "feedback": {"item": 1, "good": 0, "text": ""}}
    play.get(3, "/about")
    for seat in (3, 1, 2):
        for kind, pairs in forms.items():
            if (seat, kind) not in ((1, "close"), (2, "buy")):
                play.fill(seat, kind, pairs)
    late = [("sell", {**ATLAS, "buy_now": 99}), ("sell", {**ATLAS, "category": 9}), ("bid", {"item": 9, "amount": 1})]
    late += [("buy", {"item": 9}), ("close", {"item": 9}), ("feedback", {"item": 9, "good": 0, "text": "x"})]
    for kind, pairs in late:
        play.fill(2, kind, pairs)
    for amount in (600, 600, 1000):
        play.fill(2, "bid", {"item": 1, "amount": amount})
    play.fill(2, "buy", {"item": 1})
    for _ in range(2):
        play.fill(1, "close", {"item": 1})
    play.fill(2, "bid", {"item": 1, "amount": 2000})
    for seat in (1, 2, 2, 1):
        play.fill(seat, "feedback", {"item": 1, "good": seat - 1, "text": "<b> & \u00fc"})
    for target in ("/item/1", "/item/9", "/user/1", "/user/2", "/user/9", "/about", "/category/1", "/category/2"):
        play.get(2, target)
    play.get(2, "/category/1?page=1")
    play.get(2, "/category/1?page=x")
    play.get(2, "/categories")
    play.fill(2, "signout")
    play.get(2, "/")
    for name, password in (("ben", "ben's & <own>"), ("ben", "x"), ("bea", "x"), ("b n", "x"), ("b" * 25, "x")):
        play.fill(2, "signin", {"name": name, "password": password})
    play.get(2, "/")
    play.fill(3, "register", {"name": "ben", "password": "x"})
    refusals = {heading for status, heading in play.headings() if status != 200}
    assert refusals == EACH_REFUSAL, refusals ^ EACH_REFUSAL
    play.tell(*SHOWN)
    yield play.whole()


EACH_REFUSAL = {"Sign in first", "Not there", "Not allowed", "Own item", "Auction over", "Bid too low", "Not for sale"}
EACH_REFUSAL |= {"Not sold", "Already given", "Name taken", "Wrong name or password", "No such category"}
EACH_REFUSAL |= {"Bad field buy_now", "Bad field page", "Bad field name"}


# Cookies.


def other_cookies():
    """A cookie with another letter in one place, without its end or its beginning, or with one letter more counts as
    none; as it is, it shows who signed in."""
    value = auction.u64(1) + auction.u64(0)
    play = Play(connections=())
    play.tell("conn s1", f"write k1 {value.hex()}", "cookie k1")
    text = play.wrote[-1].split(" ")[2]
    assert len(text) == 123
    others = [text[:at] + ALPHABET[(ALPHABET.index(it) + 1) % 64] + text[at + 1 :] for at, it in enumerate(text)]
    others += [text[:at] for at in range(123)] + [text + "=", text + "A", text[1:], f'"{text}"', text.lower()]
    for other in others:
        play.get(1, "/", jar={"cookie": other, "token": ""})
    assert {bytes.fromhex(it.split(" ")[2]).count(b"Signed out") for it in play.wrote[2:]} == {1}
    play.get(1, "/", jar={"cookie": text, "token": ""})
    assert b"User 1" in bytes.fromhex(play.wrote[-1].split(" ")[2])
    yield play.whole()


def other_keys():
    """Cookies and tokens are made under the key of the service, and those of another key count as none."""
    stranger = opened().jar(1)
    for key in ("a5" * 16, "00" * 31 + "01", "5a" * 64):
        play = opened(f"key {key}")
        play.get(1, "/")
        play.get(1, "/", jar=stranger)
        play.post(1, "signout", jar={**play.jar(1), "token": stranger["token"]})
        play.fill(1, "signout")
        yield play.whole()


def sessions_side_by_side():
    """The cookie of a line about sessions is one of browsers, too: who has it is who its value says. What a browser
    sets leaves what the line wrote."""
    for user in (0, 1, 2, 2**32 - 1, 2**32):
        play = Play(connections=(1,))
        play.tell(f"write k7 {(auction.u64(user) + auction.u64(0)).hex()}", "cookie k7")
        play.jar(1)["cookie"] = play.wrote[-1].split(" ")[2]
        play.get(1, "/")
        play.tell("fetch k7", "write k8 61")
        play.fill(1, "register", {"name": "ann", "password": "x"})
        play.tell("fetch k7", "fetch k8", "windows", "values 1", "values 2", "values 3")
        play.get(1, "/")
        play.tell("now 900001")
        play.get(1, "/")
        play.tell("now 1800001", "fetch k7", "fetch k8")
        play.get(1, "/")
        play.tell("now 2700002")
        play.get(1, "/")
        yield play.whole()
    play = Play(connections=(1,))
    play.tell("write k7 6162", "cookie k7")
    play.jar(1)["cookie"] = play.wrote[-1].split(" ")[2]
    play.get(1, "/about")
    play.get(1, "/form/bid")
    play.get(1, "/")
    yield play.whole()


def who_hears_passes_over_others():
    """A browser has asked a brick, and a line hears that brick first: it passes over the browser's reply, which is
    gone. So it is with the other brick of its cookie, and the session is lost for this request, with no fault of a
    brick. Who sends the same cookie again is answered. A write whose replies are passed over is missed, and windows
    close."""
    play = Play(connections=(1,))
    play.register(1, "ann")
    play.tell("write k1 61", "write k2 62", "write k3 63")
    asked = {play.site.own[number].holders[0][0]: number for number in (1, 2, 3)}
    holders = play.site.cookies[play.jar(1)["cookie"]].holders
    play.send(1, play.request(1, "GET", "/"))
    play.tell("step s1")
    for brick, _ in holders:
        play.tell("step s1", f"fetch k{asked[brick]}", "step s1")
    play.tell("run s1")
    assert play.headings()[-1] == (403, "Session lost")
    play.jar(1)["cookie"] = next(text for text, it in play.site.cookies.items() if it.holders == holders)
    play.get(1, "/form/signin")
    play.send(1, play.form(1, "signin", {"name": "ann", "password": "ann's & <own>"}))
    course = play.site.seats[1]
    while not course.write or len(course.write.ears) < 3 or not all(it.brick.queue for it in course.write.ears):
        play.tell("step s1")
    play.tell("fetch k1", "fetch k2", "fetch k3", "windows", "run s1", "windows")
    assert play.headings()[-1] == (503, "Try again")
    play.post(1, "signin", {"name": "ann", "password": "ann's & <own>"})
    play.tell(*SHOWN)
    yield play.whole()


# Something happens behind each step of a request.

PAGES = ("/", "/form/sell", "/categories", "/category/1", "/item/1", "/user/1", "/about")
REQUESTS = [("GET", it) for it in PAGES]
FORMS = {
    "register": {"name": "cat", "password": "x"},
    "signin": {"name": "ben", "password": "ben's & <own>"},
    "signout": {},
    "sell": {**ATLAS, "title": "Maps"},
    "bid": {"item": 1, "amount": 500},
    "buy": {"item": 1},
    "feedback": {"item": 1, "good": 1, "text": "x"},
}


def at_work(play, kind):
    """A request of Ben is sent, and has made no step yet."""
    method, target = kind
    if method == "GET":
        play.send(2, play.request(2, "GET", target))
    else:
        play.get(2, f"/form/{target}")
        play.send(2, play.form(2, target, FORMS[target]))


def steps_of_calm(kind):
    """How many steps a request makes, where nothing happens."""
    play = opened()
    at_work(play, kind)
    count = 0
    while not play.site.seats[2].rests():
        play.tell("step s2")
        count += 1
    return count


def behind_each_step(kinds, happenings):
    """What happens behind each step of each request, which then makes as many steps as are left where nothing happens;
    so the journal shows whether it has to begin again. Then it goes on to its end, and is sent once more."""
    for kind in kinds:
        play = opened()
        at_work(play, kind)
        begun, calm = pickle.dumps(play), steps_of_calm(kind)
        for at in range(calm + 1):
            for happening in happenings:
                play = pickle.loads(begun)
                play.tell(*["step s2"] * at, *happening)
                play.tell(*["conn s1", "conn s2"] * ("reopen" in happening), *["step s2"] * (calm - at), "journal")
                again(play, kind)
                yield play.whole()


def again(play, kind):
    """The request goes on to its end, and is sent once more."""
    is_form = kind[0] == "POST"
    play.tell("run s2")
    play.send(2, play.form(2, kind[1], FORMS[kind[1]]) if is_form else play.request(2, "GET", kind[1]))
    play.tell("run s2", *SHOWN)


def tries_are_counted():
    """Two to four reboots void as many tries: the third is the last, and a purchase has one."""
    for kind in (("GET", "/item/1"), ("POST", "bid"), ("POST", "buy")):
        for steps in range(1, 12):
            for times in (2, 3, 4):
                play = opened()
                at_work(play, kind)
                play.tell(*["step s2"] * 3, *(["step s2"] * steps + ["reboot Items"]) * times, "journal")
                again(play, kind)
                yield play.whole()


POSTS = [("POST", it) for it in FORMS]


def reboots_behind_each_step():
    yield from behind_each_step(REQUESTS + POSTS, [[f"reboot {it}"] for it in SCOPES])


def downs_behind_each_step():
    yield from behind_each_step(POSTS[-3:], [[f"down {it}"] for it in ("Web", "Users", "Items", "app")])


def faults_behind_each_step():
    """The session of a browser is read by one, and read and written by the other."""
    faults = [f"{word} {brick} 1" for word in ("lose", "mute", "repeat") for brick in (1, 2, 3)]
    faults += [f"crash {brick}" for brick in (1, 2, 3)] + [f"sweep {brick} 1860001" for brick in (1, 2, 3)]
    happenings = [[it] for it in faults] + [["crash 1", "crash 2", "crash 3"], ["mute 1 2", "mute 2 2", "lose 3 2"]]
    yield from behind_each_step([("POST", "bid"), ("POST", "signin")], happenings)


def boots_behind_each_step():
    """The next boot has no connection, and what they held of the bricks is given back."""
    kinds = [("GET", "/form/sell"), ("POST", "signin"), ("POST", "bid")]
    yield from behind_each_step(kinds, [["reopen"], ["hold 1", "reopen"]])


def others_behind_each_step():
    """Another bid, a bid and a purchase of another browser, a caller who writes the item, and lines about sessions."""
    for at in range(steps_of_calm(("POST", "bid")) + 1):
        for what in ("bid", "bid twice", "write", "item"):
            play = opened(connections=(1, 2, 3))
            play.register(3, "cat")
            play.get(3, "/form/bid")
            at_work(play, ("POST", "bid"))
            play.tell(*["step s2"] * at)
            if what.startswith("bid"):
                play.post(3, "bid", {"item": 1, "amount": 500})
            if what == "bid twice":
                play.fill(3, "buy", {"item": 1})
            if what == "write":
                play.tell("write k1 61", "fetch k1", "windows", "fetch k1")
            if what == "item":
                data = play.site.rows[4, 1].hex()
                play.tell("begin c1", "enter c1 Items", f"put c1 4 1 {data}", "commit c1")
            play.tell("run s2", *SHOWN)
            yield play.whole()


def two_requests_step_by_step():
    """Two bids on one thing, whose steps are made in many orders; and two who come with one cookie."""
    for seed in range(200):
        chance, play = Chance(seed), opened(connections=(1, 2, 3))
        play.register(3, "cat")
        if seed % 4 == 0:
            play.jars[3] = dict(play.jar(2))
        play.get(3, "/form/bid")
        play.get(2, "/form/bid")
        if seed % 8 == 0:
            play.jars[3]["token"] = play.jar(2)["token"]
        for seat in (2, 3):
            play.send(seat, play.form(seat, "bid", {"item": 1, "amount": 500 + chance.below(2)}))
        while not all(play.site.seats[seat].rests() for seat in (2, 3)):
            play.tell(f"step s{2 + chance.below(2)}")
        play.tell(*SHOWN)
        yield play.whole()


# Afternoons by chance.

BRICK_LINES = ("lose {} 1", "mute {} 1", "crash {}", "sweep {}", "values {}", "hold {}")
BRICK_LINES += ("free {} answered", "free {} silent")
TABLES = {"Users": (1, 2), "Numbers": (3,), "Items": (4, 9), "Categories": (5,), "Bids": (6,), "Feedback": (8,)}


SIGNED_OUT = ("", "Session lost", "Session expired", "Sign in first", "Bad field token", "Signed out")


class Afternoon(Play):
    """Ann's and Ben's shop, in which anything happens."""

    def __init__(self, seed, *head):
        self.chance = Chance(seed)
        self.connections = tuple(range(1, 3 + self.chance.below(3)))
        super().__init__(*head, connections=self.connections)
        self.register(1, "ann")
        self.fill(1, "category", {"name": "Books"})
        self.fill(1, "sell", ATLAS)
        self.register(2, "ben")
        self.inside, self.last, self.most, self.faulty = {}, {}, 0, self.chance.below(2) == 0

    def one_of(self, some):
        return some[self.chance.below(len(some))]

    def pairs_of(self, kind):
        """A form that is filled in, and one time in eight not as it may be."""
        number, item = self.chance.below(1000), self.one_of((1, 1, 1, 2, 3))
        pairs = dict(FORMS.get(kind, {"item": item}), **({"item": item} if "item" in FORMS.get(kind, {}) else {}))
        if kind in ("register", "category"):
            pairs = {"name": f"u{number % 2}"}
        if kind == "signin":
            pairs = {"name": self.one_of(("ann", "ben", "u1"))}
        if kind in ("register", "signin"):
            pairs["password"] = f"{pairs['name']}'s & <own>"
        if kind == "bid":
            self.most += self.chance.below(4)
            pairs["amount"] = 99 + self.most
        if self.chance.below(8) == 0 and pairs:
            pairs[self.one_of(sorted(pairs))] = self.one_of(("", None, "0", "x" * 300, "4000000001", "a b"))
        return pairs

    def ask(self, seat):
        """A browser asks for something, sends a form, or the last one again."""
        way, jar = self.chance.below(16), dict(self.jar(seat))
        if way == 0:
            jar = dict(self.jar(self.one_of(self.connections)))
        if way > 12 and jar["heading"] in SIGNED_OUT:
            name = ("ann", "ben")[seat % 2 == 0]
            self.get(seat, "/form/signin")
            data = self.form(seat, "signin", {"name": name, "password": f"{name}'s & <own>"})
        elif way < 3 and seat in self.last:
            data = self.last[seat]
        elif way < 6:
            target = self.one_of((*PAGES, "/", "/user/2", "/nope", "/item/7"))
            data = self.request(seat, self.one_of(("GET", "GET", "HEAD")), target, jar=jar)
        elif way < 10 or not jar["token"]:
            data = self.request(seat, "GET", f"/form/{self.one_of((*KINDS, 'bid', 'bid', 'sell'))}", jar=jar)
        else:
            kind = self.one_of((*KINDS, "bid", "bid", "bid", "sell", "buy", "feedback"))
            data = self.last[seat] = self.form(seat, kind, self.pairs_of(kind), jar=jar)
        cut = self.one_of((0, 0, 1)) * self.chance.below(len(data))
        for part in (data[:cut], data[cut:]):
            if part:
                self.send(seat, part)

    def browse(self):
        seat = self.one_of(self.connections)
        if self.site.seats[seat].rests():
            self.ask(seat)
        word, count = self.one_of((("step", 1), ("step", 3), ("step", 8), ("run", 1), ("run", 1)))
        self.tell(*[f"{word} s{seat}"] * count)

    def call(self):
        """A caller begins, enters, reads or puts back what is there, goes out, or commits."""
        number, way = self.chance.below(3) + 1, self.chance.below(16)
        name = f"c{number}"
        if number not in self.site.callers:
            self.inside.pop(number, None)
            self.tell(f"begin {name}")
            return
        stale = self.site.callers[number].stale()
        if way < 4:
            self.tell(f"commit {name}")
        elif way < 5:
            self.tell(f"drop {name}")
        elif number not in self.inside:
            where = self.one_of(sorted(TABLES))
            if not self.tell(f"enter {name} {where}"):
                self.inside[number] = where
        elif way < 7:
            self.tell(f"exit {name}")
            if not stale:
                del self.inside[number]
        else:
            self.access(number, name, way)

    def access(self, number, name, way):
        table = self.one_of(TABLES[self.inside[number]])
        keys = sorted(key for other, key in self.site.rows if other == table)
        key = self.one_of(keys or [1])
        if way < 11:
            self.tell(f"read {name} {table} {key}")
        elif way < 12 and table == 5:
            self.tell(f"list {name} {table}")
        elif (table, key) in self.site.rows and len(self.site.callers[number].writes) < 15:
            self.tell(f"put {name} {table} {key} {self.site.rows[table, key].hex()}")

    def turn(self):
        """A group goes down, comes up, or both."""
        scope = self.one_of((*GROUP, "Bids", "Items", "app"))
        if self.site.scopes and self.chance.below(2):
            self.tell(f"up {self.scope_of(self.one_of(sorted(self.site.scopes, key=str)))}")
        else:
            self.tell(f"{self.one_of(('reboot', 'reboot', 'down'))} {scope}")

    @staticmethod
    def scope_of(group):
        return next((name for name, number in GROUP.items() if number == group), "app")

    def session(self):
        number = self.chance.below(3) + 1
        if number not in self.site.own or self.chance.below(3) == 0:
            self.tell(f"write k{number} {self.chance.below(2**16):04x}")
        else:
            self.tell(f"fetch k{number}")

    def strike(self):
        brick = self.site.bricks[self.chance.below(3)]
        line = self.one_of(BRICK_LINES)
        if self.faulty and (not line.startswith("free") or brick.held and not self.is_busy()):
            self.tell(line.format(brick.number))
        if self.faulty and brick.made and self.chance.below(4) == 0:
            self.tell(f"repeat {brick.number} {self.chance.below(len(brick.made)) + 1}")

    def is_busy(self):
        """Whether a connection may hold a pass: the line `free` spends passes that a line took."""
        return any(seat.write for seat in self.site.seats.values())

    def wait(self):
        self.tell(f"now {self.site.now + self.one_of((0, 1, 1000, 60_000, 60_000, 450_000, 900_001, 1_800_001))}")

    def reopen(self):
        self.tell("journal", "reopen", *(f"conn s{seat}" for seat in self.connections))
        self.inside = {}

    def happen(self):
        way = self.chance.below(64)
        if way < 40:
            self.browse()
        elif way < 48:
            self.call()
        elif way < 52:
            self.turn()
        elif way < 56:
            self.session()
        elif way < 60:
            self.strike()
        elif way < 62:
            self.wait()
        elif self.chance.below(8) == 0:
            self.reopen()

    def close(self):
        for scope in sorted(self.site.scopes, key=str):
            self.tell(f"up {self.scope_of(scope)}")
        for seat in self.connections:
            self.tell(f"run s{seat}")
            self.get(seat, "/")
            self.tell(f"end s{seat}", f"run s{seat}")
        self.tell(*SHOWN, "values 1", "values 2", "values 3", *(f"fetch k{it}" for it in sorted(self.site.own)))

    def spend(self):
        for _ in range(80):
            self.happen()
        self.close()
        self.tell("reboot Web")
        return self


# The first words of headings, each of which some afternoon shows.
ANSWERS = ("Signed out", "Welcome ", "Item ", "Bid 1 on", "Bid 2 on", "Bought", "Thanks", "Closed", "Try again")
ANSWERS += ("Bad field amount", "Bid too low", "Auction over", "Own item", "Session lost", "Session expired")
ANSWERS += ("Form is old", "Name taken", "Wrong name", "Sign in first", "Not there", "Not allowed", "Not sold")
ANSWERS += ("Bad field token",)


def afternoons_by_chance():
    """One in four has a journal that comes to be full, of which each refusal tells how many bytes it has."""
    left, full = set(ANSWERS), 0
    for seed in range(1000):
        head = [f"limit {12 + seed % 25} 268435456"] if seed % 4 == 1 else []
        play = Afternoon(seed, *head).spend()
        full += any(" full " in f" {it}" for it in play.wrote)
        told = "".join(heading for _, heading in play.headings())
        left -= {word for word in left if word in told}
        yield play.whole()
    assert not left and full > 100, f"never told: {sorted(left)}, and {full} were full"


ALL = (the_example, ann_and_ben, bids_are_weighed, each_refusal_of_each_action, other_cookies, other_keys)
ALL += (sessions_side_by_side, who_hears_passes_over_others, tries_are_counted, reboots_behind_each_step)
ALL += (downs_behind_each_step, faults_behind_each_step, boots_behind_each_step, others_behind_each_step)
ALL += (two_requests_step_by_step, afternoons_by_chance)
