"""Scenarios that are made by plain rules, which also say what they should write: two calls and a reboot in every order,
two calls of one table in every order, lists of lines by chance in which callers, reboots and sessions are mixed, pairs
of faults of bricks, requests of a browser that are cut at every place, and reports of requests that failed.
Each function of ALL yields pairs of an input and an output. The rules are stated again here, apart from the program."""

from itertools import combinations

HEAD = "component A\ncomponent B\ncomponent C\nhard A B\nowns A 40\nowns C 41\n"


def orders(steps):
    """All orders of so many steps of each of two calls: at each place, whether the step is the second call's."""
    places = range(2 * steps)
    return [[at in chosen for at in places] for chosen in combinations(places, steps)]


# Two calls and one reboot. A call is revoked exactly where the reboot stands after its enter and before its commit, and
# the scope holds the group that it entered.


class Course:
    """A call of five steps: where it stands is before its enter, inside, revoked or committed."""

    def __init__(self, caller, name, table, group, byte):
        self.lines = [f"begin {caller}", f"enter {caller} {name}", f"put {caller} {table} 7 {byte}", f"exit {caller}"]
        self.lines.append(f"commit {caller}")
        self.caller, self.standing = caller, "before"
        self.refusal = f"{caller} revoked group {group} had 0 now 1"
        self.row = f"{table} 7 {byte}"


def with_reboot(scope, holds, order, at):
    """A reboot of a scope before the step of this place, or after all ten."""
    calls = [Course("c1", "A", 40, 0, "61"), Course("c2", "C", 41, 2, "62")]
    lines, wanted, place = [], [], 0
    for step in range(11):
        if step == at:
            lines.append(f"reboot {scope}")
            wanted += [f"down {place}", f"up {place + 1}"]
            place += 2
            for call, held in zip(calls, holds):
                if held and call.standing == "inside":
                    call.standing = "revoked"
        if step == 10:
            break
        call = calls[order[step]]
        line = call.lines.pop(0)
        lines.append(line)
        if call.standing == "revoked":
            wanted.append(call.refusal)
        elif line.startswith("enter"):
            call.standing = "inside"
        elif line.startswith("commit"):
            wanted.append(f"{call.caller} committed {place}")
            place += 1
            call.standing = "committed"
    lines.append("table")
    wanted += [call.row for call in calls if call.standing == "committed"]
    return lines, wanted


def reboots_in_every_order():
    scopes = [("A", (True, False)), ("B", (True, False)), ("C", (False, True)), ("app", (True, True))]
    for scope, holds in scopes:
        for order in orders(5):
            for at in range(11):
                yield whole(HEAD, with_reboot(scope, holds, order, at))


# Two calls of one table. A call finds what the other one had committed at its begin, and meets a conflict exactly where
# the other one has since committed a row that it read, listed or puts.


class Pair:
    """A call of four steps: it begins, enters A, does its action and commits."""

    def __init__(self, caller, key, action):
        self.caller, self.key, self.action = caller, key, action
        self.steps = self.at = self.committed = 0
        self.finds = False

    def has_written(self):
        return self.committed > 0 and self.action in ("read and put", "put")

    def meets_conflict(self, other):
        rests = self.action == "list" or self.key == other.key
        return other.has_written() and other.committed > self.at and rests

    def act(self, other):
        """The lines of its action, and what they write."""
        caller, key, found = f"c{self.caller}", self.key, f"6{other.caller}"
        lines, wanted = [], []
        if self.action == "list":
            lines.append(f"list {caller} 40")
            wanted.append(f"{caller} list 1 {other.key}={found}" if self.finds else f"{caller} list 0")
        if self.action.startswith("read"):
            lines.append(f"read {caller} 40 {key}")
            wanted.append(f"{caller} row {found if self.finds and key == other.key else 'none'}")
        if self.action.endswith("put"):
            lines.append(f"put {caller} 40 {key} 6{self.caller}")
        return lines, wanted

    def commit(self, other, place):
        """What its commit writes at this place of the journal."""
        if self.meets_conflict(other):
            what = "table 40" if self.action == "list" else f"row 40 {self.key}"
            return f"c{self.caller} conflict {what} at {self.at} newest {other.committed}"
        self.committed = place + 1
        return f"c{self.caller} committed {place}"

    def rows(self, other):
        """Its row, where it stands at the end."""
        replaced = other.has_written() and other.key == self.key and other.committed > self.committed
        return [f"40 {self.key} 6{self.caller}"] if self.has_written() and not replaced else []


def of_one_table(order, first, second):
    calls, place = [first, second], 0
    lines, wanted = [], []
    for is_second in order:
        call, other = calls[is_second], calls[not is_second]
        if call.steps == 0:
            lines.append(f"begin c{call.caller}")
            call.at, call.finds = place, other.has_written()
        elif call.steps == 1:
            lines.append(f"enter c{call.caller} A")
        elif call.steps == 2:
            more, told = call.act(other)
            lines += more
            wanted += told
        else:
            lines.append(f"commit c{call.caller}")
            wanted.append(call.commit(other, place))
            place += call.committed > 0
        call.steps += 1
    lines.append("table")
    return lines, wanted + first.rows(second) + second.rows(first)


def calls_of_one_table_in_every_order():
    actions = ("read", "list", "read and put", "put")
    for key in (7, 8):
        for second in actions:
            for first in actions:
                for order in orders(4):
                    yield whole(HEAD, of_one_table(order, Pair(1, 7, first), Pair(2, key, second)))


# Sessions: a value is found that a brick of its cookie keeps and tells, and why each brick does not is told where none
# does.

STRAYS, GRACE, LEASE = 64, 60_000, 1_800_000


class Brick:
    """A brick, its window and the way to it."""

    def __init__(self, number):
        self.number, self.incarnation, self.kept, self.swept = number, 1, [], 0
        self.to_mute = self.to_lose = self.strays = self.made = self.held = 0
        self.window = 4

    def is_open(self):
        return self.held < self.window

    def ask(self, value=None):
        """What a call hears that asks it, to store a value where there is one."""
        muted, self.to_mute = self.to_mute > 0, max(self.to_mute - 1, 0)
        comes = False
        if not muted:
            if value is not None:
                self.kept.append(value)
            comes, self.to_lose = self.to_lose == 0, max(self.to_lose - 1, 0)
            self.made += 1
        if self.strays >= STRAYS:
            self.strays += comes - STRAYS
            return "strayed"
        self.strays = 0
        return "reply" if comes else "silent"

    def crash(self):
        self.kept, self.swept, self.incarnation = [], 0, self.incarnation + 1

    def sweep(self, moment):
        self.kept = [it for it in self.kept if it[1] + GRACE >= moment]
        self.swept = max(self.swept, moment)

    def spend(self, heard):
        self.window = min(self.window + 1, 64) if heard == "reply" else max(self.window // 2, 1)


class Service:
    """Sessions over bricks. A write asks three, and needs two. A value is the number of its write and its expiry."""

    def __init__(self, bricks):
        self.bricks = [Brick(number + 1) for number in range(bricks)]
        self.cookies, self.now, self.serial, self.writes = {}, 0, 0, 0

    def draw(self):
        self.serial += 1
        return self.serial - 1

    def write(self, key):
        self.writes += 1
        value = (self.writes, self.now + LEASE)
        serial, count = self.draw(), len(self.bricks)
        line = f"write k{key} {self.writes:04x}"
        around = [self.bricks[(serial + more) % count] for more in range(count)]
        chosen = [brick for brick in around if brick.is_open()][:3]
        if len(chosen) < 2:
            full = [f" {it.number}:{it.window}/{it.held}" for it in self.bricks if not it.is_open()]
            return line, f"k{key} overload{''.join(full)}"
        stored, causes = [], ""
        for brick in chosen:
            heard = brick.ask(value)
            brick.spend(heard)
            if heard == "reply":
                stored.append((brick, brick.incarnation))
            else:
                causes += f" {brick.number}:{heard}"
        if len(stored) < 2:
            return line, f"k{key} missed{causes}"
        self.cookies[key] = (value, stored[:2])
        return line, f"k{key} version {serial} bricks {stored[0][0].number} {stored[1][0].number}"

    def fetch(self, key):
        """A fetch by the cookie of a key."""
        (value, holders), line = self.cookies[key], f"fetch k{key}"
        self.draw()
        if self.now > value[1]:
            return line, f"k{key} expired {self.now} {value[1]}"
        causes = ""
        for brick, incarnation in holders:
            heard = brick.ask()
            if heard == "reply" and value in brick.kept:
                return line, f"k{key} found {value[0]:04x}"
            if heard == "reply" and brick.incarnation != incarnation:
                heard = f"crashed/{brick.incarnation}"
            elif heard == "reply":
                heard = f"swept/{brick.swept}"
            causes += f" {brick.number}:{heard}"
        return line, f"k{key} lost{causes}"

    def windows(self):
        return "windows" + "".join(f" {it.number}:{it.window}/{it.held}" for it in self.bricks)


# Callers: a call that entered a group is revoked once the group was rebooted since. Each caller has a row of its own in
# the table of A and in that of C, so no two calls meet a conflict.

TABLES, GROUPS = {"A": 40, "C": 41}, {"A": 0, "C": 2}


class Caller:
    def __init__(self, number):
        self.number, self.rows, self.committed = number, {}, None
        self.end()

    def end(self):
        """Its call is over."""
        self.is_live, self.inside, self.entered, self.puts = False, None, {}, {}

    def stale(self, reboots):
        """What its refusal tells where a group was rebooted since its call entered it: the first that it entered."""
        for name, had in self.entered.items():
            if had < reboots[name]:
                return [f"c{self.number} revoked group {GROUPS[name]} had {had} now {reboots[name]}"]
        return []

    def commit(self, reboots, place):
        if self.committed is not None:
            return [f"c{self.number} already {self.committed}"]
        stale = self.stale(reboots)
        if not stale:
            self.rows.update(self.puts)
            self.committed = place
        return stale or [f"c{self.number} committed {place}"]

    def enter(self, reboots, name):
        stale = self.stale(reboots)
        if not stale:
            self.inside = name
            self.entered.setdefault(name, reboots[name])
        return f"enter c{self.number} {name}", stale

    def step_inside(self, reboots, choice):
        """It puts a value, reads, or goes out."""
        number, table, name = self.number, TABLES[self.inside], self.inside
        stale = self.stale(reboots)
        if choice % 4 < 2:
            if not stale:
                self.puts[name] = choice
            return f"put c{number} {table} {number} {choice:04x}", stale
        if choice % 4 == 2:
            value = self.puts.get(name, self.rows.get(name))
            shown = "none" if value is None else f"{value:04x}"
            return f"read c{number} {table} {number}", stale or [f"c{number} row {shown}"]
        if not stale:
            self.inside = None
        return f"exit c{number}", stale


class Callers:
    def __init__(self, count):
        self.callers = [Caller(number + 1) for number in range(count)]
        self.reopen()

    def reopen(self):
        for caller in self.callers:
            caller.end()
            caller.committed = None
        self.reboots, self.place = {"A": 0, "C": 0}, 0

    def step(self, number, choice):
        """The next step of a caller: it begins where it has no call. Else by the choice, below 1,024, its call commits,
        is dropped, or goes on."""
        caller = self.callers[number - 1]
        if not caller.is_live:
            caller.is_live = True
            return f"begin c{number}", []
        if choice < 160:
            told = caller.commit(self.reboots, self.place)
            self.place += " committed " in told[0]
            caller.end()
            return f"commit c{number}", told
        if choice < 200:
            caller.end()
            return f"drop c{number}", []
        if caller.inside is None:
            return caller.enter(self.reboots, "AC"[choice % 2])
        return caller.step_inside(self.reboots, choice)

    def reboot(self, scope):
        for name in TABLES:
            self.reboots[name] += scope in (name, "app")
        self.place += 2
        return f"reboot {scope}", [f"down {self.place - 2}", f"up {self.place - 1}"]

    def table(self):
        rows = []
        for name, table in TABLES.items():
            rows += [f"{table} {it.number} {it.rows[name]:04x}" for it in self.callers if name in it.rows]
        return rows


class Chance:
    """Numbers that look random."""

    def __init__(self, seed):
        self.state = seed

    def below(self, end):
        self.state = (self.state * 6_364_136_223_846_793_005 + 1_442_695_040_888_963_407) % 2**64
        return (self.state >> 33) % end if end else 0

    def up_to(self, end):
        return self.below(end) + 1


KEYS = CALLERS = 3


class Mixed:
    """A list of lines by chance over three to five bricks, and what the plain rules know after them."""

    def __init__(self, seed):
        self.chance = Chance(seed)
        count = self.chance.below(3) + 3
        self.service, self.callers, self.boot = Service(count), Callers(CALLERS), 1
        self.head = f"{HEAD}bricks {count} 3 2\n"
        self.lines, self.wanted = [], []

    def add(self, line, *told):
        self.lines.append(line)
        self.wanted += told

    def brick(self):
        return self.service.bricks[self.chance.below(len(self.service.bricks))]

    def fetch_of(self, key):
        if key in self.service.cookies:
            self.add(*self.service.fetch(key))

    def expiry(self):
        """The expiry of some cookie, or the present moment."""
        key = self.chance.up_to(KEYS)
        return self.service.cookies[key][0][1] if key in self.service.cookies else self.service.now

    def go_on(self):
        """The present moment stays, goes on a little or a lot, or to the expiry of a cookie."""
        expiry, now = self.expiry(), self.service.now
        choice = self.chance.below(6)
        self.service.now = [now, now + 1, now + 700_000, now + 1_800_001, max(now, expiry), max(now, expiry)][choice]
        self.add(f"now {self.service.now}")

    def strike(self):
        """Something happens to a brick, or on the way to it."""
        expiry, how = self.expiry(), self.chance.below(4)
        moment = [self.service.now, expiry + GRACE, expiry + GRACE + 1, expiry + GRACE + 1][how]
        choice, count, brick = self.chance.below(8), self.chance.up_to(2), self.brick()
        if choice < 2:
            brick.to_lose += count
            self.add(f"lose {brick.number} {count}")
        elif choice < 4:
            brick.to_mute += count
            self.add(f"mute {brick.number} {count}")
        elif choice < 6:
            brick.crash()
            self.add(f"crash {brick.number}")
        else:
            brick.sweep(moment)
            self.add(f"sweep {brick.number} {moment}")

    def repeat(self):
        """A reply of a brick that has made one comes once more, or about as often as a call passes over."""
        count = 1 if self.chance.below(3) == 0 else self.chance.below(4) + 62
        brick = self.brick()
        if brick.made:
            reply = self.chance.up_to(brick.made)
            brick.strays += count
            for _ in range(count):
                self.add(f"repeat {brick.number} {reply}")

    def hold_or_free(self):
        """A pass is held, or one that is held is freed."""
        choice, brick = self.chance.below(5), self.brick()
        if choice > 1 or brick.held == 0:
            if brick.is_open():
                brick.held += 1
                self.add(f"hold {brick.number}", f"held {brick.number} {brick.held}")
            else:
                self.add(f"hold {brick.number}", f"closed {brick.number} {brick.window} {brick.held}")
            return
        brick.held -= 1
        brick.spend("reply" if choice == 0 else "silent")
        self.add(f"free {brick.number} {'answered' if choice == 0 else 'silent'}")

    def show(self):
        brick = self.brick()
        if self.chance.below(2) == 0:
            self.add(f"values {brick.number}", f"values {brick.number} {len(brick.kept)}")
        else:
            self.add("windows", self.service.windows())

    def call(self):
        number, choice = self.chance.up_to(CALLERS), self.chance.below(1024)
        line, told = self.callers.step(number, choice)
        self.add(line, *told)

    def restart(self):
        """A reboot, or the next boot."""
        choice = self.chance.below(6)
        if choice < 5:
            line, told = self.callers.reboot(["A", "A", "C", "C", "app"][choice])
            self.add(line, *told)
            return
        self.boot += 1
        self.service.serial = 0
        self.callers.reopen()
        self.add("reopen", f"boot {self.boot}")

    def step(self):
        """A line by chance."""
        choice = self.chance.below(32)
        if choice < 5:
            self.add(*self.service.write(self.chance.up_to(KEYS)))
        elif choice < 11:
            self.fetch_of(self.chance.up_to(KEYS))
        elif choice < 16:
            self.strike()
        elif choice < 17:
            self.repeat()
        elif choice < 18:
            self.go_on()
        elif choice < 21:
            self.hold_or_free()
        elif choice < 22:
            self.show()
        elif choice < 30:
            self.call()
        else:
            self.restart()

    def close(self):
        """All is shown, and each cookie is fetched by."""
        self.add("windows", self.service.windows())
        for brick in self.service.bricks:
            self.add(f"values {brick.number}", f"values {brick.number} {len(brick.kept)}")
        for key in range(1, KEYS + 1):
            self.fetch_of(key)
        self.add("table", *self.callers.table())


# What lists of lines write, a word of each kind of answer: each 250 lists write them all.
ANSWERS = (" version ", " missed ", " overload ", " found ", " expired ", " lost ", ":silent", ":strayed")
ANSWERS += (":crashed/", ":swept/", "closed ", " committed ", " already ", " revoked group 0 ", " revoked group 2 ", " row none", "boot 3")


def mixed_by_chance():
    for first in range(0, 1000, 250):
        left = set(ANSWERS)
        for seed in range(first, first + 250):
            play = Mixed(seed)
            for _ in range(60):
                play.step()
            play.close()
            text, wanted = whole(play.head, (play.lines, play.wanted))
            left -= {word for word in left if word in wanted}
            yield text, wanted
        assert not left, f"not written from list {first} on: {sorted(left)}"


def reads_by_chance():
    """One list of 3,000 lines of writes, reads and faults. A read finds what was written last or is lost: often a reply
    is lost, an ask muted or an old reply repeated, and seldom a brick crashes or is swept."""
    chance, service = Chance(1), Service(3)
    lines, wanted = [], []
    for _ in range(3000):
        key, what, told = chance.below(3) + 1, chance.below(3), []
        if what == 0:
            brick = service.bricks[chance.below(3)]
            number, fault = brick.number, chance.below(16)
            if fault == 0:
                brick.crash()
                line = f"crash {number}"
            elif fault == 1:
                brick.sweep(LEASE + GRACE + 1)
                line = f"sweep {number} {LEASE + GRACE + 1}"
            elif fault < 7:
                brick.to_lose += 1
                line = f"lose {number} 1"
            elif fault < 12:
                brick.to_mute += 1
                line = f"mute {number} 1"
            elif brick.made:
                brick.strays += 1
                line = f"repeat {number} {chance.up_to(brick.made)}"
            else:
                line, told = f"values {number}", [f"values {number} {len(brick.kept)}"]
        elif what == 1 and key in service.cookies:
            line, answer = service.fetch(key)
            told = [answer]
        else:
            line, answer = service.write(key)
            told = [answer]
        lines.append(line)
        wanted += told
    found, lost = (sum(word in it for it in wanted) for word in (" found ", " lost "))
    assert found > 100 and lost > 10, f"{found} reads found a value and {lost} did not"
    yield whole("bricks 3 3 2\n", (lines, wanted))


# One fault of a brick between two writes, and one between the second write and a fetch. The value is found, since the
# cookie names two bricks that stored it.

FAULTS = ("lose {} 1", "mute {} 1", "crash {}", "repeat {} 1", "sweep {} 1860001")


def after_a_fault(fault, brick):
    """The cookie's bricks and the windows after a fault at the write. A brick that is silent is in no cookie, and its
    window is halved; any other fault keeps no brick from storing, so the cookie names the first two of 2, 3 and 1."""
    silent = fault.startswith(("lose", "mute"))
    bricks = {1: "2 3", 2: "3 1", 3: "2 1"}[brick] if silent else "2 3"
    windows = [f"{it}:{2 if silent and it == brick else 6}/0" for it in (1, 2, 3)]
    return f"k1 version 1 bricks {bricks}", f"windows {' '.join(windows)}"


def one_fault_at_the_write_and_one_at_the_read():
    places = [(fault, brick) for fault in FAULTS for brick in (1, 2, 3)]
    for fault, brick in places:
        version, windows = after_a_fault(fault, brick)
        for later, other in places:
            lines = ["write k2 60", fault.format(brick), "write k1 61", later.format(other), "fetch k1", "windows"]
            yield whole("bricks 3 3 2\n", (lines, ["k2 version 0 bricks 1 2", version, "k1 found 61", windows]))


def full_bricks_are_told():
    """Both bricks keep 65,536 values of one byte, and so are full. Each one's cause is told: the reply of the one is
    lost. A brick that crashed has room again."""
    lines = ["write k1 61"] * 65_536 + ["values 1", "values 2", "windows", "lose 2 1", "write k1 61", "windows"]
    lines += ["crash 1", "write k1 61", "values 1", "windows"]
    wanted = [f"k1 version {serial} bricks {'2 1' if serial % 2 else '1 2'}" for serial in range(65_536)]
    wanted += ["values 1 65536", "values 2 65536", "windows 1:64/0 2:64/0", "k1 missed 1:full/65536/65536 2:silent"]
    wanted += ["windows 1:64/0 2:32/0", "k1 missed 2:full/65536/65536", "values 1 1", "windows 1:64/0 2:33/0"]
    yield whole("bricks 2 2 2\n", (lines, wanted))


# The site: what a connection is answered is the same however the bytes of its requests are cut.

CURL = b"GET / HTTP/1.1\r\nHost: localhost\r\nUser-Agent: curl/8.5.0\r\nAccept: */*\r\n\r\n"
HOME = b"""<!doctype html>
<title>Auctions</title>
<h1>Auctions</h1>
<p>Signed out</p>
<p><a href="/categories">Categories</a></p>
"""


def home_pages_by_every_cut():
    """Two requests of the home page on one connection: in one line for each byte, with nothing, a step or a run behind
    each, and in two lines, cut at each place; then the second one without its end."""
    page = b"HTTP/1.1 200 OK\r\nContent-Type: text/html; charset=utf-8\r\nContent-Length: 120\r\n\r\n" + HOME
    out = f"s1 out {page.hex()}"
    for behind in ([], ["step s1"], ["run s1"]):
        lines = [line for byte in CURL + CURL for line in (f"bytes s1 {byte:02x}", *behind)]
        yield whole("site\nconn s1\n", ([*lines, "run s1", "end s1", "run s1"], [out, out, "s1 closed"]))
    for cut in range(len(CURL) * 2 + 1):
        parts = [(CURL + CURL)[:cut], (CURL + CURL)[cut:]]
        lines = [line for part in parts for line in (f"bytes s1 {part.hex() or '-'}", "run s1")]
        yield whole("site\nconn s1\n", (lines, [out, out]))
    for cut in range(1, len(CURL)):
        lines = [f"bytes s1 {(CURL + CURL[:cut]).hex()}", "end s1", "run s1"]
        yield whole("site\nconn s1\n", (lines, [out, "s1 ended cut"]))


# Reports of requests that failed, of components and moments by chance. A component that three or more of the last ten
# seconds have, and no other more, brings a reboot that is one wider than the widest of its group of the last thirty.


class Manager:
    """What decides on reboots, by the groups of the components."""

    def __init__(self, groups):
        self.groups, self.reports, self.acts = groups, [], []

    def hear(self, now, path):
        """A report, and what is decided then."""
        self.reports.append((now, path))
        recent = [known for moment, known in self.reports if now - moment <= 10_000]
        scores = [sum(component in known for known in recent) for component in range(len(self.groups))]
        if max(scores) < 3:
            return "decide none"
        group = self.groups[scores.index(max(scores))]
        wide = [level for moment, level, of in self.acts if now - moment <= 30_000 and (level > 0 or of == group)]
        level = min(max(wide, default=-1) + 1, 3)
        self.acts.append((now, level, group))
        self.reports = []
        return "decide " + (f"group {group}", "app", "process", "human")[level]


def reports_by_chance():
    """40 lists of 300 lines, most of which report one to four of five components, in three groups."""
    head = "component A\ncomponent B\ncomponent C\ncomponent D\ncomponent E\nhard C A\nhard B D\n"
    left = {"decide none", "decide group 0", "decide group 1", "decide group 4"}
    left |= {"decide app", "decide process", "decide human"}
    for seed in range(40):
        chance, manager, now, boot, place = Chance(seed), Manager((0, 1, 0, 1, 4)), 0, 1, 0
        lines, wanted = [], []
        for _ in range(300):
            what = chance.below(16)
            if what < 4:
                now += chance.below((200, 4_000, 12_000, 40_000)[what])
                lines.append(f"now {now}")
            elif what == 4 and chance.below(4) == 0:
                boot, place = boot + 1, 0
                lines.append("reopen")
                wanted.append(f"boot {boot}")
            elif what == 5:
                lines.append(f"reboot {'ABCDE'[chance.below(5)]}")
                wanted += [f"down {place}", f"up {place + 1}"]
                place += 2
            else:
                path = [chance.below(5) for _ in range(chance.up_to(4))]
                lines.append("report " + " ".join("ABCDE"[component] for component in path))
                wanted.append(manager.hear(now, path))
        left -= set(wanted)
        yield whole(head, (lines, wanted))
    assert not left, f"not decided: {sorted(left)}"


def whole(head, played):
    """An input and an output of these lines."""
    lines, wanted = played
    return head + "\n".join(lines), "".join(it + "\n" for it in wanted)


ALL = (reboots_in_every_order, calls_of_one_table_in_every_order, mixed_by_chance, reads_by_chance)
ALL += (one_fault_at_the_write_and_one_at_the_read, full_bricks_are_told, home_pages_by_every_cut, reports_by_chance)
