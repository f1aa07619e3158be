"""An afternoon in the shop, by chance: browsers ask and send forms over two to four connections, step by step, while
callers put rows, groups go down and come up, sessions are written and read, and bricks fail.

The lines are given to the program one by one, since what a browser sends next is made of what it was answered: its
cookie, and the token of its form. What was sent and written is kept, for rules.py to judge."""

import os
import random
import re
import sys
from importlib.machinery import SourceFileLoader
from importlib.util import module_from_spec, spec_from_loader

TOP = os.path.dirname(os.path.dirname(os.path.dirname(os.path.realpath(__file__))))


def tool(name):
    """A script of tools/ as a module."""
    loader = SourceFileLoader(name, os.path.join(TOP, "tools", name))
    module = module_from_spec(spec_from_loader(name, loader))
    loader.exec_module(module)
    return module


sys.dont_write_bytecode = True
say = tool("say")

# The auction's components by their groups, which of them one may call, and the table in which callers put rows, whose
# keys no action has.
GROUP = {"Web": 0, "Users": 1, "Feedback": 1, "Numbers": 2, "Items": 3, "Bids": 3, "Purchases": 3, "Categories": 4}
CALLS = {"Web": set(GROUP) - {"Web"}, "Bids": {"Items"}, "Purchases": {"Items"}, "Feedback": {"Users", "Items"}}
TABLE = {"Users": 2, "Numbers": 3, "Items": 9, "Bids": 6, "Feedback": 8}
KEYS = range(2**60, 2**60 + 3)
LEASE = 1_800_000
NAMES = ("ann", "ben", "cat")
KINDS = (*["bid"] * 16, *["sell"] * 2, *["feedback"] * 2, "register", "signin", "signout", "category", "buy", "close")
PAGES = ("/", "/", "/", "/item/1", "/item/2", "/about", "/categories", "/category/1", "/user/1", "/user/2")
# A request makes fewer steps than this, its tries included.
MOST_STEPS = 2000


class Wrong(Exception):
    """What the program wrote breaks a rule, so that the afternoon cannot go on."""


class Request:
    """A request, and what came of it."""

    def __init__(self, browser, cookie, target, fields=None, token=None):
        self.browser, self.cookie, self.target, self.fields, self.token = browser, cookie, target, fields, token
        self.sent_at = self.boot = 0
        self.answered_at = None
        # How many steps it has made, and for each scope that went down before it was answered: the place, the groups,
        # and the steps until then. Where `run` made some of them, they were not counted.
        self.steps, self.counted, self.downs = 0, True, []
        # Whether no other request had the same token by its answer, and whether nothing else happened in its course,
        # with nothing down and no other request open.
        self.alone, self.line, self.undisturbed = True, 0, False
        self.status, self.heading, self.page, self.sets = 0, "", b"", None

    def number(self):
        """The boot and the serial number that its token names."""
        return int(self.token[:8], 16), int(self.token[8:24], 16)

    def text(self):
        """Its bytes, as tools/say writes them."""
        below = [f"Cookie: theme=dark; crash={self.cookie}"] if self.cookie else []
        below += [f"{name}={value}" for name, value in (self.fields or {}).items()]
        below += [f"token={self.token}"] if self.token else []
        parts = say.Parts(list(enumerate(below)), say.Unplayed())
        return say.request_of("POST" if self.fields is not None else "GET", self.target, "HTTP/1.1", parts)


class Browser:
    """What one keeps: a cookie, a token and whether it was sent, and who has registered with it."""

    def __init__(self, name):
        self.name, self.cookie, self.token, self.last, self.users = name, None, None, None, []


class Seat:
    """A connection of a browser, and its request that is not answered yet."""

    def __init__(self, number, browser):
        self.number, self.browser, self.request = number, browser, None
        # Whether it waits for bytes, as far as is known: then it holds no pass to a brick.
        self.rests = True


class Caller:
    """A call that the scenario makes itself."""

    def __init__(self, number):
        self.number, self.frames, self.entered, self.void, self.puts, self.at = number, [], set(), False, {}, None


class Shop:
    """One afternoon: the program, all that was sent and written, and what follows from it without a model of it."""

    def __init__(self, program, seed):
        self.chance = random.Random(seed)
        self.play, self.lines, self.written = say.Play(program), [], []
        self.now, self.boot, self.places, self.faulty = 0, 1, 0, self.chance.random() < 0.5
        self.hasty = self.chance.random() < 0.3
        self.browsers = [Browser(name) for name in NAMES[: self.chance.randint(2, 3)]]
        self.seats, self.callers, self.down = [], {}, {}
        # What each cookie means: who signed in, if any did, between which moments it was set, and of which session it
        # is; and the session of each token.
        self.requests, self.meanings, self.tokens = [], {}, {}
        self.callers_made = self.amount = self.names = self.items = 0
        # The sessions kN: their last acknowledged value, and when it was written. What each boot's journal was; each
        # commit of a caller; and the rows that callers put.
        self.sessions, self.journals, self.commits, self.rows, self.table = {}, {}, [], {}, []
        # Where each scope went down and came up.
        self.turns = []

    # Lines, and what they write.

    def tell(self, line):
        """Gives the program a line. What it writes."""
        self.lines.append(line)
        before = len(self.play.heard)
        self.play.send(f"{line}\n".encode(), len(self.lines))
        self.play.catch_up(len(self.lines))
        heard = [it.decode().rstrip("\n") for it in self.play.heard[before:-1]]
        self.written += heard
        return heard

    def wrong(self, line, wrote):
        raise Wrong(f"line {len(self.lines)}, `{line}`, wrote {wrote or 'nothing'}")

    def one(self, line, pattern):
        """Gives it a line that has to write one line of this form."""
        wrote = self.tell(line)
        found = re.fullmatch(pattern, wrote[0]) if len(wrote) == 1 else None
        return found or self.wrong(line, wrote)

    def none(self, line):
        """Gives it a line that writes nothing."""
        wrote = self.tell(line)
        if wrote:
            self.wrong(line, wrote)

    # Browsers.

    def send(self, seat, request):
        """Sends a request, in one line or in two."""
        data, cut = request.text(), self.chance.choice((0, 0, 1))
        cut *= self.chance.randrange(len(request.text()))
        for part in (data[:cut], data[cut:]):
            if part:
                self.none(f"bytes s{seat.number} {part.hex()}")
        request.sent_at, request.boot = self.now, self.boot
        for other in self.requests:
            if request.token and other.token == request.token:
                request.alone = False
                other.alone = other.alone and other.answered_at is not None
        request.line = len(self.lines)
        request.undisturbed = not self.down and all(it is seat or it.rests for it in self.seats)
        self.requests.append(request)
        seat.request, seat.rests = request, False

    def step(self, seat, word="step"):
        """Makes a step, or more, and takes the answer where that was put out."""
        request, wrote = seat.request, self.tell(f"{word} s{seat.number}")
        if request and word == "run":
            request.counted = False
        if request:
            request.steps += 1
        for line in wrote:
            found = re.fullmatch(rf"s{seat.number} out ((?:[0-9a-f][0-9a-f])+)", line)
            if not found or seat.request is None or len(wrote) > 1:
                self.wrong(self.lines[-1], wrote)
            self.hear(seat, bytes.fromhex(found[1]))
        if word == "run" and seat.request:
            self.wrong(self.lines[-1], wrote)
        seat.rests = seat.rests or word == "run"

    def hear(self, seat, response):
        """Takes the answer to the open request of a connection."""
        request, seat.request = seat.request, None
        head, _, page = response.partition(b"\r\n\r\n")
        status, heading = re.match(rb"HTTP/1.1 ([0-9]+) ", head), re.search(rb"<h1>(.*)</h1>", page)
        length = re.search(rb"\r\nContent-Length: ([0-9]+)", head)
        if not (status and heading and length and int(length[1]) == len(page)):
            self.wrong(self.lines[-1], [response.decode(errors="backslashreplace")])
        request.status, request.heading, request.page = int(status[1]), heading[1].decode(), page
        request.answered_at = self.now
        request.undisturbed = request.undisturbed and len(self.lines) == request.line + request.steps
        if re.fullmatch("Item [0-9]+", request.heading):
            self.items = max(self.items, int(request.heading.split(" ")[1]))
        cookie, token = say.SET_COOKIE.search(response), say.TOKEN.search(page)
        if cookie:
            request.sets = cookie[1].decode() or None
            self.set_cookie(request)
        if token:
            request.browser.token, request.browser.last = token[1].decode(), None
            self.tokens[request.browser.token] = self.session_of(request)

    def set_cookie(self, request):
        """What a new cookie means: who signed in with it, nobody, or who the one before meant; and since when."""
        who, page = self.meanings.get(request.cookie, (None,))[0], request.heading
        if page.startswith("Welcome "):
            who = page.removeprefix("Welcome ")
        elif page == "Signed out":
            who = None
        if request.sets:
            self.meanings[request.sets] = (who, request.sent_at, self.now, self.session_of(request))
        # A cookie that another connection was given since is kept where the old one was found to be gone.
        if request.sets or request.browser.cookie == request.cookie:
            request.browser.cookie = request.sets

    def session_of(self, request):
        """The session of a request: that of its cookie, and else one that begins with it."""
        return self.meanings[request.cookie][3] if request.cookie else self.requests.index(request)

    def get(self, seat, target):
        self.send(seat, Request(seat.browser, seat.browser.cookie, target))

    def post(self, seat, kind, fields):
        """Sends a form with the token that the browser has, which then counts as sent."""
        browser = seat.browser
        target = "/categories" if kind == "category" else f"/{kind}"
        browser.last = Request(browser, browser.cookie, target, fields, browser.token)
        self.send(seat, browser.last)

    def fields_of(self, kind, browser):
        """A form that is filled in, somehow."""
        chance = self.chance
        item = chance.choice((1, 1, 1, 2, 2, chance.randint(1, self.items + 1)))
        if kind == "register":
            self.names += 1
            browser.users.append(f"{browser.name}{self.names}")
            return {"name": browser.users[-1], "password": f"p w & {self.names}"}
        if kind == "signin":
            name = chance.choice(browser.users)
            return {"name": name, "password": f"p w & {name.removeprefix(browser.name)}"}
        if kind == "category":
            return {"name": f"Things <{chance.randint(1, 9)}>"}
        if kind == "sell":
            start = chance.randint(1, 9)
            return {"title": f"It's {start}", "category": 1, "start": start, "buy_now": 0, "hours": 720}
        if kind == "bid":
            self.amount += chance.choice((-1, 0, 1, 1, 2, 5))
            return {"item": item, "amount": self.amount + 100}
        return {"item": item, "good": 1, "text": "Fine"} if kind == "feedback" else {"item": item}

    def ask(self, seat):
        """The browser of an idle connection asks for something."""
        browser, chance = seat.browser, self.chance
        way = chance.random()
        if browser.last and way < 0.2:
            same = browser.last
            self.send(seat, Request(browser, browser.cookie, same.target, same.fields, same.token))
        elif browser.token and browser.cookie and not browser.last and way < 0.9:
            kind = chance.choice(KINDS if browser is not self.browsers[0] else (*KINDS[-8:], "sell", "close"))
            fields = self.fields_of(kind, browser) if kind != "signout" else {}
            self.post(seat, kind, fields)
        elif way < 0.8:
            self.get(seat, f"/form/{chance.choice(('bid', 'bid', 'buy', 'sell', 'feedback', 'close', 'register'))}")
        else:
            self.get(seat, chance.choice(PAGES))

    def serve(self, seat):
        """Runs an open request to its answer, and behind it."""
        while seat.request:
            if seat.request.steps > MOST_STEPS:
                raise Wrong(f"s{seat.number} was not answered after {MOST_STEPS} steps")
            self.step(seat, self.chance.choice(("step", "step", "step", "run")) if self.hasty else "step")
        self.step(seat, "run")

    def is_busy(self):
        """Whether a connection may hold passes to bricks."""
        return any(not seat.rests for seat in self.seats)

    # What else happens.

    def scope_down(self, word):
        """A scope goes down. Whether it did."""
        groups = set(GROUP.values()) if word == "app" else {GROUP[word]}
        is_busy = any(groups & down for down in self.down.values())
        wrote = self.tell(f"down {word}")
        found = re.fullmatch("busy group ([0-9]+) down [0-9]+" if is_busy else "down ([0-9]+)", "".join(wrote))
        if not found:
            self.wrong(self.lines[-1], wrote)
        if is_busy:
            return False
        self.turns.append((self.boot, int(found[1]), "down", word))
        self.down[word] = groups
        for caller in self.callers.values():
            caller.void = caller.void or bool(caller.entered & groups)
        for seat in self.seats:
            if seat.request:
                seat.request.downs.append((int(found[1]), groups, seat.request.steps))
        return True

    def scope_up(self, word):
        found = self.one(f"up {word}", "up ([0-9]+)")
        self.turns.append((self.boot, int(found[1]), "up", word))
        del self.down[word]

    def reboot(self):
        word = self.chance.choice((*GROUP, "Web", "Bids", "app"))
        if self.scope_down(word) and self.chance.random() < 0.8:
            self.scope_up(word)

    def call(self):
        """A caller begins, or goes a step on."""
        if self.chance.random() < 0.2 or not self.callers:
            self.callers_made += 1
            self.callers[self.callers_made] = Caller(self.callers_made)
            self.none(f"begin c{self.callers_made}")
            return
        caller = self.callers[self.chance.choice(sorted(self.callers))]
        name, top = f"c{caller.number}", caller.frames[-1] if caller.frames else None
        may = sorted(CALLS.get(top, ()) if top else GROUP)
        way = self.chance.random()
        if way < 0.4 and may:
            self.enter(caller, self.chance.choice(may))
        elif way < 0.7 and top in TABLE:
            self.put(caller, TABLE[top], self.chance.choice(KEYS))
        elif way < 0.8 and top:
            if self.goes_on(caller, f"exit {name}"):
                caller.frames.pop()
        elif way < 0.95:
            self.commit(caller)
        else:
            self.none(f"drop {name}")
            del self.callers[caller.number]

    def goes_on(self, caller, line, pattern=None):
        """A step of a call, which is refused exactly where a group that it entered has gone down since. Whether it was
        made."""
        wrote = self.tell(line)
        told = "".join(wrote)
        if caller.void != told.startswith(f"c{caller.number} revoked ") or len(wrote) > 1:
            self.wrong(line, wrote)
        if not caller.void and not re.fullmatch(pattern or "", told):
            self.wrong(line, wrote)
        return not caller.void and "sentinel" not in told

    def enter(self, caller, name):
        is_down = any(GROUP[name] in groups for groups in self.down.values())
        pattern = rf"c{caller.number} sentinel group {GROUP[name]} down [0-9]+" if is_down else ""
        if self.goes_on(caller, f"enter c{caller.number} {name}", pattern):
            caller.frames.append(name)
            caller.entered.add(GROUP[name])

    def put(self, caller, table, key):
        """Puts a row, and reads it back."""
        data = self.chance.randbytes(self.chance.randint(1, 4)).hex()
        name = f"c{caller.number}"
        if self.goes_on(caller, f"put {name} {table} {key} {data}"):
            caller.puts[table, key] = data
            self.goes_on(caller, f"read {name} {table} {key}", f"{name} row {data}")

    def commit(self, caller):
        name = f"c{caller.number}"
        wrote = self.tell(f"commit {name}")
        del self.callers[caller.number]
        found = re.fullmatch(rf"{name} committed ([0-9]+)", "".join(wrote))
        refused = "revoked group" if caller.void else "conflict row"
        if len(wrote) != 1 or bool(found) == wrote[0].startswith(f"{name} {refused} ") or caller.void and found:
            self.wrong(self.lines[-1], wrote)
        if found:
            self.commits.append((self.boot, int(found[1]), 2**63 + caller.number, len(caller.puts)))
            self.rows.update(caller.puts)

    def session(self):
        """A session of the scenario's own is written, or read back."""
        number = self.chance.randint(1, 3)
        if number not in self.sessions or self.chance.random() < 0.4:
            data = self.chance.randbytes(self.chance.randint(1, 8)).hex()
            wrote = "".join(self.tell(f"write k{number} {data}"))
            if re.fullmatch(rf"k{number} version [0-9]+ bricks [123] [123]", wrote):
                self.sessions[number] = (data, self.now)
            elif not re.match(rf"k{number} (missed|overload) ", wrote) or not (self.faulty or self.is_busy()):
                self.wrong(self.lines[-1], wrote)
            return
        data, written_at = self.sessions[number]
        wrote = "".join(self.tell(f"fetch k{number}"))
        is_over = self.now > written_at + LEASE
        wanted = f"k{number} expired {self.now} {written_at + LEASE}" if is_over else f"k{number} found {data}"
        if wrote != wanted and not (self.faulty and not is_over and wrote.startswith(f"k{number} lost ")):
            self.wrong(self.lines[-1], wrote)

    def fail(self):
        """A brick fails, where this afternoon has that."""
        brick = self.chance.randint(1, 3)
        if self.faulty:
            self.none(self.chance.choice((f"crash {brick}", f"lose {brick} 1", f"mute {brick} 1", f"sweep {brick}")))

    def wait(self):
        if self.hasty:
            self.now += self.chance.choice((1, 1_000, 60_000, 60_000, 950_000, 1_900_000))
            self.none(f"now {self.now}")

    def reopen(self):
        """The next boot: connections, callers and the journal are gone."""
        self.journals[self.boot] = self.tell("journal")
        self.boot += 1
        self.one("reopen", f"boot {self.boot}")
        self.callers, self.down = {}, {}
        for seat in self.seats:
            seat.request, seat.rests = None, True
            self.none(f"conn s{seat.number}")

    def rush(self):
        """All who are idle bid for one thing at once, their steps in any order, and a group may be rebooted between."""
        seats = [seat for seat in self.seats if seat.request is None and seat.browser.cookie]
        seats = list({id(seat.browser): seat for seat in seats}.values())
        for seat in seats:
            self.get(seat, "/form/bid")
            self.serve(seat)
        item = self.chance.randint(1, 2)
        for seat in seats:
            if seat.browser.cookie and seat.browser.token and not seat.browser.last:
                self.post(seat, "bid", {**self.fields_of("bid", seat.browser), "item": item})
        while any(seat.request for seat in seats):
            self.step(self.chance.choice([seat for seat in seats if seat.request]))
            if self.chance.random() < 0.02 and not self.down and self.scope_down("Bids"):
                self.scope_up("Bids")

    def happen(self):
        """One thing happens."""
        way = self.chance.random()
        seat = self.chance.choice(self.seats)
        if way < 0.6:
            if seat.request is None:
                self.ask(seat)
            elif self.hasty and self.chance.random() < 0.1:
                self.step(seat, "run")
            else:
                for _ in range(self.chance.randint(1, 12)):
                    self.step(seat)
        elif way < 0.7 and self.down:
            self.scope_up(self.chance.choice(sorted(self.down)))
        elif way < 0.75:
            self.reboot()
        elif way < 0.9:
            self.call()
        elif way < 0.95:
            self.session()
        elif way < 0.965:
            self.rush()
        elif way < 0.98:
            self.fail()
        elif way < 0.995:
            self.wait()
        elif self.chance.random() < 0.3:
            self.reopen()

    def open(self):
        """All register, and the first one, who is user 1, offers things to buy."""
        self.play.send(b"site\n", 0)
        self.lines.append("site")
        for number in range(1, max(len(self.browsers), self.chance.randint(2, 4)) + 1):
            self.seats.append(Seat(number, self.browsers[(number - 1) % len(self.browsers)]))
            self.none(f"conn s{number}")
        kinds = [("register", seat) for seat in self.seats[: len(self.browsers)]]
        kinds += [(kind, self.seats[0]) for kind in ("category", "sell", "sell")]
        for kind, seat in kinds:
            self.get(seat, f"/form/{kind}")
            self.serve(seat)
            fields = self.fields_of(kind, seat.browser)
            if kind == "sell":
                fields |= {"start": 100, "buy_now": self.chance.choice((0, 110, 5000))}
            self.post(seat, kind, fields)
            self.serve(seat)
            if seat.browser.last.status != 200:
                raise Wrong(f"{seat.browser.name} was not welcome: {seat.browser.last.heading}")

    def close(self):
        """All comes up, each request is answered, each browser looks at the first page, and all is told."""
        for word in sorted(self.down):
            self.scope_up(word)
        for seat in self.seats:
            self.serve(seat)
        for seat in self.seats:
            self.get(seat, "/")
            self.serve(seat)
        for seat in self.seats:
            self.none(f"end s{seat.number}")
            self.one(f"run s{seat.number}", f"s{seat.number} closed")
        self.table = self.tell("table")
        self.journals[self.boot] = self.tell("journal")
        self.play.end()

    def course(self, word, steps):
        """A short afternoon: a bid, behind so many of whose steps a scope is rebooted, or none where no scope is named.
        The request of the bid."""
        self.faulty = self.hasty = False
        self.open()
        seat = self.seats[1]
        self.get(seat, "/form/bid")
        self.serve(seat)
        self.post(seat, "bid", {"item": 1, "amount": 500})
        bid = seat.request
        for _ in range(steps):
            self.step(seat)
        if word and self.scope_down(word):
            self.scope_up(word)
        self.close()
        return bid

    def spend(self):
        """The whole afternoon."""
        self.open()
        for _ in range(self.chance.randint(50, 250)):
            self.happen()
        self.close()
