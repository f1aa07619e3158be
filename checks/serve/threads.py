"""A server that is allowed fewer threads than it has work for: it serves all the same, until its journal is full."""

import os
import resource
import shutil

from service import Browser, Closed, Connection, Service, Wrong, expect

# A user of whom there is no process, and how many processes and threads it may have.
NOBODY, LIMITS = 61_234, (1, 2, 5)
# How many entries a journal may have, of which each page and each form is one; how many of them there are at most before
# pages are counted; and how many pages are sent together.
ENTRIES, BEFORE, TOGETHER = 262_144, 8, 1_000
PAGES = b"GET / HTTP/1.1\r\n\r\n" * TOGETHER


def threads_of(process):
    return len(os.listdir(f"/proc/{process.pid}/task"))


def fills_its_journal(service):
    """One thread plans no restart: once the journal is full each request is answered 503. The next start ends that."""
    connection, served, uncounted = Connection(service.port), 0, 0
    while True:
        try:
            connection.send(PAGES)
            told = [connection.response() for _ in range(TOGETHER)]
        except Closed:
            # (it paused for too long, or has had its thousand requests)
            connection.close()
            connection, uncounted = Connection(service.port), uncounted + TOGETHER
            continue
        good = sum(it.status == 200 for it in told)
        served += good
        if good < TOGETHER:
            break
    if any(it.status != 200 for it in told[:good]):
        raise Wrong("pages came behind a full journal")
    for it in told[good:]:
        expect(it, 503, "Try again")
    if not ENTRIES - BEFORE - uncounted <= served <= ENTRIES:
        raise Wrong(f"a boot whose journal has {ENTRIES} entries served {served} pages")
    connection.close()
    if service.boots() != 1:
        raise Wrong("one thread restarted its boot")


def serves(program, room, limit):
    """Serves pages and forms with so many threads."""
    service = Service(program, room)
    for path in (service.room, service.key):
        os.chown(path, NOBODY, NOBODY)
    service.program = shutil.copy(program, room)
    service.start(
        user=NOBODY,
        group=NOBODY,
        extra_groups=[],
        preexec_fn=lambda: resource.setrlimit(resource.RLIMIT_NPROC, (limit, limit)),
    )
    ann = Browser(service.port)
    expect(ann.send("register", name="ann", password="x"), 200, "Welcome ann")
    expect(ann.get("/"), 200, "Auctions", "User 1", ("/categories", "Categories"))
    ann.leave()
    count = threads_of(service.process)
    if count > limit:
        raise Wrong(f"a server that may have {limit} threads has {count}")
    if limit == 1:
        fills_its_journal(service)
        service.kill()
        service.start()
        expect(ann.get("/"), 403, "Session lost")
        expect(ann.send("signin", name="ann", password="x"), 200, "Welcome ann")
    service.kill()


def check(program, room):
    """Each limit, where another user may be taken."""
    if os.geteuid() != 0:
        return "no limit of threads, which only root could set here"
    os.makedirs(room)
    for path in (os.path.dirname(room), room):
        os.chmod(path, 0o755)
    for limit in LIMITS:
        serves(program, f"{room}/{limit}", limit)
    return f"servers of {', '.join(map(str, LIMITS))} threads, and a full journal"
