"""What has to hold of an afternoon, whatever happened in it: plain rules over what was sent and what was written.

Each function of ALL yields what breaks its rule. None of them knows how the program comes to its answers."""

import re
from collections import Counter

from shop import GROUP, KEYS, LEASE

# Answers that no commit has to stand behind.
NO_PAGES = {"Try again", "Session expired", "Session lost", "Form is old", "Bad field token"}
FIRST_CALL = 2**63
# The component through which an accepted action goes, if any, and the components that own the tables of its reads and
# writes, in order, as docs/AUCTION.md has them; by the beginning of its page.
WAYS = {
    "/register": ("Welcome ", None, ["Users", "Numbers", "Numbers", "Users", "Users"]),
    "/signin": ("Welcome ", None, ["Users", "Users"]),
    "/signout": ("Signed out", None, []),
    "/categories": ("Category ", None, ["Numbers", "Numbers", "Categories"]),
    "/sell": ("Item ", None, "Categories Numbers Numbers Users Numbers Numbers Items Items Users Items".split()),
    "/bid": ("Bid ", "Bids", ["Items", "Bids", "Items"]),
    "/buy": ("Bought ", "Purchases", ["Items", "Items"]),
    "/close": ("Closed ", "Purchases", ["Items", "Items"]),
    "/feedback": ("Thanks", "Feedback", ["Items", "Users", "Feedback", "Users", "Items"]),
}


def commits_of(journal):
    """The commits of a journal: the place and how many rows each wrote, by its number."""
    found = {}
    for line in journal:
        entry = re.fullmatch(r"([0-9]+) commit ([0-9]+):([0-9]+) writes ([0-9]+)", line)
        if entry:
            place, boot, serial, writes = map(int, entry.groups())
            found.setdefault((boot, serial), []).append((place, writes))
    return found


def all_commits(shop):
    found = {}
    for journal in shop.journals.values():
        for number, places in commits_of(journal).items():
            found.setdefault(number, []).extend(places)
    return found


def rows_of(shop):
    """The rows of the table at the end, by table and key."""
    rows = {}
    for line in shop.table:
        table, key, data = line.split(" ")
        rows[int(table), int(key)] = bytes.fromhex(data.replace("-", ""))
    return rows


def word(data, at):
    """The number of eight bytes from this place on."""
    return int.from_bytes(data[at : at + 8], "big")


def text(data):
    """The text at the front of a row."""
    return data[2 : 2 + int.from_bytes(data[:2], "big")].decode()


def users_of(shop):
    """The number of each user by the name."""
    rows = [data for (table, key), data in rows_of(shop).items() if table == 2 and key not in KEYS]
    return {text(data): word(data, len(data) - 8) for data in rows}


class Item:
    """A row of table 4."""

    def __init__(self, data):
        self.state, self.seller, self.start = data[0], word(data, 1), word(data, 17)
        self.best, self.bidder, self.buyer = word(data, 33), word(data, 41), word(data, 61)
        self.bids, self.title = int.from_bytes(data[49:53], "big"), text(data[70:])


def pages(shop):
    """The requests that were answered with the page of an action."""
    return [it for it in shop.requests if it.answered_at is not None and it.heading not in NO_PAGES]


def accepted(shop, target):
    """The forms of this target whose action was accepted, each token once, with the words behind the page's first."""
    first, found = WAYS[target][0], {}
    for it in pages(shop):
        if it.token and it.target == target and it.status == 200 and it.heading.startswith(first):
            found[it.token] = it
    return found.values()


def who(shop, request):
    """The name of the user who asks, or None."""
    return shop.meanings.get(request.cookie, (None,))[0]


def askers(shop, request):
    """The numbers of all who sent this form. One who has signed out since may send it again, and is told its page."""
    users = users_of(shop)
    return {users.get(who(shop, it)) for it in shop.requests if it.token == request.token}


def journals_are_counted(shop):
    for boot, journal in shop.journals.items():
        for place, line in enumerate(journal):
            if not re.fullmatch(rf"{place} (commit {boot}:[0-9]+ writes [0-9]+|(down|up) (group [0-9]+|app))", line):
                yield f"the journal of boot {boot} has at {place}: {line}"


def reboots_are_in_the_journal(shop):
    for boot, place, turn, scope in shop.turns:
        line = f"{place} {turn} {'app' if scope == 'app' else f'group {GROUP[scope]}'}"
        if shop.journals[boot][place : place + 1] != [line]:
            yield f"not in the journal of boot {boot}: {line}"
    told = sum(len(re.findall("^[0-9]+ (?:down|up) ", line)) for it in shop.journals.values() for line in it)
    if told != len(shop.turns):
        yield f"{told} entries of reboots, and {len(shop.turns)} were told"


def numbers_commit_once(shop):
    for number, places in all_commits(shop).items():
        if len(places) > 1:
            yield f"request {number} has commits at {places}"


def calls_have_their_commits(shop):
    """Each commit of a caller that was told is in the journal, with as many rows as it put; and no other one is."""
    told = {(boot, serial): [(place, writes)] for boot, place, serial, writes in shop.commits}
    found = {number: it for number, it in all_commits(shop).items() if number[1] >= FIRST_CALL}
    if told != found:
        yield f"callers were told {told}, and the journals have {found}"


def calls_have_their_rows(shop):
    rows = rows_of(shop)
    for (table, key), data in shop.rows.items():
        if rows.get((table, key)) != bytes.fromhex(data):
            yield f"row {key} of table {table} is not {data}, which was committed last"


def pages_have_commits(shop):
    """Each page of a form has one commit of its number. A GET has one too, and draws its own number."""
    commits, forms = all_commits(shop), {it.token: it for it in pages(shop) if it.token}
    for it in forms.values():
        if it.number() not in commits:
            yield f"{it.target} was answered `{it.heading}`, and {it.number()} has no commit"
    asked = sum(it.token is None for it in pages(shop))
    # What may have committed and was answered otherwise, or not at all.
    untold = [it for it in shop.requests if it.answered_at is None or it.heading == "Try again"]
    found = sum(number[1] < FIRST_CALL for number in commits)
    if not asked + len(forms) <= found <= asked + len(forms) + len(untold):
        yield f"{found} commits, of {asked} pages and {len(forms)} forms, with {len(untold)} that were told no page"


def forms_count_once(shop):
    """The same form sent again is answered the same page."""
    seen = {}
    for it in pages(shop):
        if it.token:
            page = (it.status, it.heading, it.page)
            if seen.setdefault(it.token, page) != page:
                yield f"{it.target} {it.fields} was answered {seen[it.token]} and then {page}"


def forms_are_of_their_boot(shop):
    for it in shop.requests:
        if it.token and it.answered_at is not None and it.number()[0] != it.boot:
            if it.heading not in ("Form is old", "Bad field token"):
                yield f"{it.target} with a form of boot {it.number()[0]} was answered `{it.heading}` in boot {it.boot}"


def forms_are_of_their_session(shop):
    for it in shop.requests:
        if it.token and it.answered_at is not None:
            is_own = it.cookie and shop.meanings[it.cookie][3] == shop.tokens[it.token]
            if bool(is_own) == (it.heading == "Bad field token"):
                yield f"{it.target} was answered `{it.heading}`, with {'' if is_own else 'no '}form of its session"


def what_was_refused_has_no_commit(shop):
    """Where each answer to a form of a bid was to try again, and no session could be due, nothing was committed."""
    commits, forms = all_commits(shop), {}
    for it in shop.requests:
        if it.token and it.target not in ("/register", "/signin", "/signout"):
            forms.setdefault(it.token, []).append(it)
    for some in forms.values():
        if all(it.answered_at is not None and it.heading in NO_PAGES for it in some) and not shop.hasty:
            if some[0].number() in commits:
                yield f"{some[0].target} was told {[it.heading for it in some]}, and has a commit"


def quiet_requests_are_answered(shop):
    """A request in whose course nothing else happened, with nothing down, is answered with its page."""
    for it in shop.requests:
        if it.undisturbed and not shop.faulty and it.heading in ("Try again", "Session lost"):
            yield f"{it.target} was answered `{it.heading}`, and nothing was in its way"


def sessions_begin(shop):
    """Who registers, signs in or signs out is given a cookie, and so is who asks for a form without one."""
    for it in pages(shop):
        signs = it.token and it.status == 200 and it.heading.startswith(("Welcome ", "Signed out"))
        if (signs or it.target.startswith("/form/") and not it.cookie) and not it.sets:
            yield f"{it.target} was answered `{it.heading}`, and no cookie"


def sessions_are_read_back(shop):
    """The first page shows who signed in with the cookie that was sent, and nobody where nobody did."""
    users = users_of(shop)
    for it in pages(shop):
        if it.token is None and it.target == "/":
            user = f"User {users.get(who(shop, it))}" if who(shop, it) else "Signed out"
            if f"<p>{user}</p>\n".encode() not in it.page or it.status != 200:
                yield f"the first page is {it.page}, and was asked for by {who(shop, it)}, {user}"


def sessions_end_with_their_lease(shop):
    for it in shop.requests:
        _, first, last, _ = shop.meanings.get(it.cookie, (None, 0, 0, 0))
        if it.heading == "Session expired" and not (it.cookie and it.answered_at > first + LEASE):
            yield f"{it.target} was answered `Session expired` at {it.answered_at}, with a cookie of {first}"
        if it.cookie and it.target == "/" and it.heading == "Auctions" and it.sent_at > last + LEASE:
            yield f"{it.target} was answered at {it.answered_at}, with a cookie of {last}"


def bids_stay(shop):
    """Each bid that was acknowledged is in the table, by its bidder and of its amount."""
    rows = rows_of(shop)
    for it in accepted(shop, "/bid"):
        number, item = map(int, re.fullmatch("Bid ([0-9]+) on item ([0-9]+)", it.heading).groups())
        row = rows.get((6, item * 2**20 + number), bytes(24))
        wanted = (it.fields["amount"], it.fields["item"])
        if (word(row, 8), item) != wanted or word(row, 0) not in askers(shop, it):
            yield f"`{it.heading}` was told {askers(shop, it)} of {wanted}, and its row is {row.hex()}"


def items_have_their_bids(shop):
    """The bids on an item are numbered from 1, no two are of one amount, and the item has the greatest as its best."""
    rows = rows_of(shop)
    for (table, key), data in rows.items():
        if table != 4:
            continue
        item = Item(data)
        bids = [row for (other, at), row in sorted(rows.items()) if other == 6 and at >> 20 == key]
        keys = [at for other, at in sorted(rows) if other == 6 and at >> 20 == key]
        amounts = [word(row, 8) for row in bids]
        best = (amounts[-1], word(bids[-1], 0)) if bids else (0, 0)
        if keys != [key * 2**20 + number for number in range(1, item.bids + 1)]:
            yield f"item {key} has {item.bids} bids, and the rows {keys}"
        if amounts != sorted(set(amounts)) or (item.best, item.bidder) != best:
            yield f"item {key} has the bids {amounts}, and the best is {item.best} of {item.bidder}"
        if item.state == 2 and not item.buyer or item.state == 1 and item.bids:
            yield f"item {key} is in state {item.state}, with {item.bids} bids and the buyer {item.buyer}"


def deals_stay(shop):
    """What was registered, offered, bought, closed and said is in the table."""
    rows, users = rows_of(shop), users_of(shop)
    for it in accepted(shop, "/register"):
        if it.heading != f"Welcome {it.fields['name']}" or it.fields["name"] not in users:
            yield f"{it.fields} was told `{it.heading}`, and the users are {users}"
    for it in accepted(shop, "/categories"):
        if text(rows.get((5, int(it.heading.split(" ")[1])), bytes(2))) != it.fields["name"]:
            yield f"{it.fields} was told `{it.heading}`, and has no row"
    for it in accepted(shop, "/sell"):
        item = Item(rows.get((4, int(it.heading.split(" ")[1])), bytes(100)))
        offered = (it.fields["title"], it.fields["start"])
        if (item.title, item.start) != offered or item.seller not in askers(shop, it):
            yield f"{it.fields} was told `{it.heading}`, and has no row"
    for target, states in (("/buy", (2,)), ("/close", (1, 2))):
        for it in accepted(shop, target):
            item = Item(rows.get((4, it.fields["item"]), bytes(100)))
            user = item.buyer if target == "/buy" else item.seller
            if item.state not in states or user not in askers(shop, it):
                yield f"`{it.heading}` was told {askers(shop, it)}, and the item is in state {item.state} of {user}"
    given = [(word(data, 0), word(data, 8)) for (table, key), data in rows.items() if table == 8 and key not in KEYS]
    if len(given) != len(set(given)):
        yield f"somebody gave feedback twice: {given}"
    for it in accepted(shop, "/feedback"):
        if not any((asker, it.fields["item"]) in given for asker in askers(shop, it)):
            yield f"{it.fields} of {askers(shop, it)} was told Thanks, and has no row"


def steps_from(target, groups):
    """How many steps an accepted action makes from its first into these groups on, its commit among them: it enters
    Web and the component that it goes through, then for each row its owner, unless it is in it, and leaves all."""
    _, through, owners = WAYS[target]
    steps = ["Web"] + [through] * bool(through)
    for owner in owners:
        steps += ["row"] if owner == through else [owner, "row", "leave"]
    steps += ["leave"] * (2 if through else 1) + ["commit"]
    entered = [at for at, step in enumerate(steps) if step in GROUP and GROUP[step] in groups]
    return len(steps) - entered[0] if entered else 0


def reboots_void_tries(shop):
    """A group that an action enters went down in its course, and it committed behind that: then all that it did in the
    group was done behind it, and so were as many steps as that takes."""
    commits = all_commits(shop)
    for it in pages(shop):
        first = WAYS.get(it.target, ("?",))[0]
        if not (it.token and it.alone and it.counted and it.status == 200 and it.heading.startswith(first)):
            continue
        place = commits.get(it.number(), [(0, 0)])[0][0]
        for down, groups, steps in it.downs:
            needed = steps_from(it.target, groups)
            if down < place and it.steps - steps < needed:
                yield f"`{it.heading}` came {it.steps - steps} steps behind a reboot of {groups}, and takes {needed}"


def faults_of_courses(word, calm, courses):
    """What breaks a rule in courses of one bid, behind 0, 1 and more of whose steps a scope was rebooted; `calm` is how
    many steps it makes without. At first it had not entered the scope, and makes as many; then it is tried again, and
    behind the reboot it makes as many steps wherever that was; and at last it had committed, and makes as many as calm.
    Each course is how many steps it made, and whether its commit stands behind the reboot."""
    groups = set(GROUP.values()) if word == "app" else {GROUP[word]}
    kinds = ["committed" if not behind else "first" if steps == calm else "again" for steps, behind in courses]
    first, again = kinds.count("first"), kinds.count("again")
    if kinds != ["first"] * first + ["again"] * again + ["committed"] * (calm - first - again):
        yield f"a reboot of {word} finds its bid in this order: {kinds}"
    if not first or calm - first + 1 < steps_from("/bid", groups):
        yield f"a bid of {calm} steps has not entered {word} by the {first}th"
    left = {steps - at for at, (steps, _) in enumerate(courses) if kinds[at] == "again"}
    if len(left) != 1 or min(left) <= steps_from("/bid", set(GROUP.values())):
        yield f"behind a reboot of {word} a bid makes {sorted(left)} steps"
    if any(steps != calm for at, (steps, _) in enumerate(courses) if kinds[at] == "committed"):
        yield f"a bid that had committed makes other steps than {calm} behind a reboot of {word}"


ALL = (journals_are_counted, reboots_are_in_the_journal, numbers_commit_once, calls_have_their_commits)
ALL += (calls_have_their_rows, pages_have_commits, forms_count_once, forms_are_of_their_boot)
ALL += (forms_are_of_their_session, what_was_refused_has_no_commit, quiet_requests_are_answered)
ALL += (sessions_begin, sessions_are_read_back)
ALL += (sessions_end_with_their_lease, bids_stay, items_have_their_bids, deals_stay, reboots_void_tries)


def faults(shop):
    """What breaks a rule, with the name of the rule."""
    return [f"{rule.__name__}: {fault}" for rule in ALL for fault in rule(shop)]


def counts(shop):
    """What was seen, so that a run can say that it saw some of it."""
    commits = all_commits(shop)
    seen = Counter(afternoons=1, requests=len(shop.requests), bids=len(accepted(shop, "/bid")))
    for it in pages(shop):
        place = commits.get(it.number(), [(0, 0)])[0][0] if it.token else 0
        behind = [down for down, _, _ in it.downs if down < place]
        seen["requests that committed behind a reboot in their course"] += bool(behind)
        seen["forms sent again"] += bool(it.token) and not it.alone
    seen["commits of callers"] = len(shop.commits)
    return seen
