"""Each error of an operator: with which status the program ends, and what it writes. docs/OPERATING.md, "When it does
not start"."""

import os
import resource
import signal
import socket
import subprocess

from service import HOST, Browser, Service, Wrong, expect, sqlite3

USAGE = "usage: crash drive | groups | workload NUMBER COUNT | serve PORT FILE KEYFILE WORKERS"
MOST_SECONDS = 20
NOT_THERE, IS_FOLDER = "No such file or directory (os error 2)", "Is a directory (os error 21)"
NO_FILE, NO_PATH = "it is no file, or has another name as well", "it is no path of a file"
NOT_FIT = "a row has at most 4096 bytes, and table 0 has one row alone, the number of the last boot in 4 bytes"
NO_ROW = "crash_rows has a row whose t is not from 0 to 255 or whose k is not 8 bytes"
IS_LAST = "the number of its last boot is the greatest, 4294967295"
LAST_BOOT = (2**32 - 1).to_bytes(4, "big")
# The file of the database, or its log, may not grow past this, and then fewer categories than so many are taken.
LARGEST_FILE, MOST_CATEGORIES = 400_000, 2_000

# Words that spell no command; P is a port, F a file, K a key file.
WORDS = (
    "P F K",
    "P F K 8 9",
    "0 F K 8",
    "65536 F K 8",
    "08080 F K 8",
    "+8080 F K 8",
    "P F K 0",
    "P F K 65",
    "P F K 08",
    "P F K eight",
    " F K 8",
)


def ends(service, status, *lines, words=None, **how):
    """That the program ends with a status, and writes just these lines."""
    words = words or service.words()
    ran = subprocess.run(words, stdin=subprocess.DEVNULL, capture_output=True, timeout=MOST_SECONDS, **how)
    wrote = ran.stderr.decode(errors="replace").splitlines()
    if (ran.returncode, wrote, ran.stdout) != (status, list(lines), b""):
        raise Wrong(f"{words} ends with status {ran.returncode} and writes {wrote}; and not {status} and {lines}")


def fails(service, name, reason):
    """That a start fails, since what has this name is of no use for this reason."""
    ends(service, 14, f"{name}: {reason}", "start failed")


def write(name, data):
    with open(name, "wb") as file:
        file.write(data)


def words_are_refused(service):
    values = {"P": str(service.port), "F": service.file, "K": service.key}
    for row in WORDS:
        words = [service.program, "serve", *(values.get(it, it) for it in row.split(" "))]
        ends(service, 2, USAGE, words=words)
    if os.path.exists(service.file):
        raise Wrong("words that spell no command made a file")


def keys_are_refused(service):
    os.remove(service.key)
    fails(service, service.key, NOT_THERE)
    os.mkdir(service.key)
    fails(service, service.key, IS_FOLDER)
    os.rmdir(service.key)
    for size in (0, 15, 1025, 5000):
        write(service.key, os.urandom(size))
        ends(service, 13, f"{service.key}: a key has 16 to 1024 bytes", "key refused")
    if os.path.exists(service.file):
        raise Wrong("a key that is refused made a file")
    for size in (1024, 16):
        write(service.key, os.urandom(size))
        service.start().kill()


def files_are_refused(service):
    kept, service.file = service.file, os.path.join(service.room, "nowhere", "shop.db")
    fails(service, service.file, NOT_THERE)
    for file, reason in ((service.room, NO_FILE), ("/dev/null", NO_FILE), (":memory:", NO_PATH), ("file:x", NO_PATH)):
        service.file = file
        fails(service, file, reason)
    service.file = os.path.join(service.room, "text.db")
    write(service.file, b"no database, but a text that is long enough to be looked at as one\n" * 100)
    fails(service, service.file, "file is not a database that obeys its schema")
    if sqlite3:
        service.file = os.path.join(service.room, "other.db")
        other = sqlite3.connect(service.file)
        other.execute("CREATE TABLE crash_rows (t INTEGER, k TEXT)")
        other.commit()
        other.close()
        fails(service, service.file, "crash_rows is another table in it")
    service.file = kept


def serving(service):
    """The line of a server that has opened all."""
    return f"serving {service.file} on {HOST}:{service.port} by {service.workers} workers"


def rows_are_refused(service):
    """A number of a boot that is spent, and rows that may not be loaded, put there by another program."""
    if not sqlite3:
        return
    kept = service.rows()
    for table, key, data, status, reason, line in (
        (0, 0, LAST_BOOT, 11, IS_LAST, "boots spent"),
        (0, 0, b"12345", 7, NOT_FIT, "bad row 0 0"),
        (0, 9, b"1234", 7, NOT_FIT, "bad row 0 9"),
        (4, 1, b"x" * 4097, 7, NOT_FIT, "bad row 4 1"),
        (300, 1, b"", 6, NO_ROW, "keeper failed"),
    ):
        service.put(table, key, data)
        ends(service, status, serving(service), f"{service.file}: {reason}", line)
        other = sqlite3.connect(service.file)
        other.execute("DELETE FROM crash_rows WHERE t = ? AND k = ?", (table, key.to_bytes(8, "big")))
        other.commit()
        other.close()
    service.put(0, 0, kept[0, 0])
    service.start().kill()


def ports_are_refused(service):
    taken = socket.socket()
    taken.bind((HOST, service.port))
    taken.listen()
    fails(service, f"port {service.port}", "Address already in use (os error 98)")
    taken.close()


def a_file_has_one_server(program, service):
    """A second server over the file of the first, and the first goes on."""
    service.start()
    second = Service(program, f"{service.room}/second")
    second.file = service.file
    fails(second, service.file, "database is locked")
    expect(Browser(service.port).get("/"), 200, "Auctions", "Signed out", ("/categories", "Categories"))
    service.kill()


def the_key_comes_first(service):
    """The key is looked at before the file, and the file before the port."""
    key, file = service.key, service.file
    taken = socket.socket()
    taken.bind((HOST, service.port))
    taken.listen()
    service.file = os.path.join(service.room, "nowhere", "shop.db")
    fails(service, service.file, NOT_THERE)
    service.key = os.path.join(service.room, "no_key")
    fails(service, service.key, NOT_THERE)
    taken.close()
    service.key, service.file = key, file


def limit_files(size=LARGEST_FILE):
    """Lets no file of the process grow past a size: a write past it fails as on a full disk."""
    signal.signal(signal.SIGXFSZ, signal.SIG_IGN)
    resource.setrlimit(resource.RLIMIT_FSIZE, (size, size))


def a_full_disk_stops_a_start(service):
    """Where the file cannot grow, the number of the boot is not written."""
    line = f"{service.file}: disk I/O error"
    ends(service, 6, serving(service), line, "keeper failed", preexec_fn=lambda: limit_files(0))


def a_full_disk_loses_nothing(program, service):
    """Where the file cannot grow, forms are answered 503 and pages go on; and behind a start with room all is there
    that was acknowledged."""
    full = Service(program, f"{service.room}/full").start(preexec_fn=limit_files)
    ann, taken = Browser(full.port), 0
    expect(ann.send("register", name="ann", password="x"), 200, "Welcome ann")
    while taken < MOST_CATEGORIES:
        answer = ann.send("category", name=f"{taken + 1}")
        if answer.status != 200:
            break
        taken += 1
        expect(answer, 200, f"Category {taken}")
    expect(answer, 503, "Try again")
    if answer.field("retry-after") != "2":
        raise Wrong("an answer to try again does not say when")
    expect(ann.get("/"), 200, "Auctions", "User 1", ("/categories", "Categories"))
    full.kill()
    full.start()
    ann = Browser(full.port)
    listed = [(f"/category/{number}", str(number)) for number in range(1, taken + 1)]
    expect(ann.get("/categories"), 200, "Categories", *listed)
    expect(ann.send("signin", name="ann", password="x"), 200, "Welcome ann")
    expect(ann.send("category", name=f"{taken + 1}"), 200, f"Category {taken + 1}")
    full.kill()


def check(program, room):
    """Each error, with its status and its lines."""
    service = Service(program, room)
    words_are_refused(service)
    keys_are_refused(service)
    files_are_refused(service)
    rows_are_refused(service)
    ports_are_refused(service)
    the_key_comes_first(service)
    a_file_has_one_server(program, service)
    a_full_disk_stops_a_start(service)
    a_full_disk_loses_nothing(program, service)
    return "errors of an operator"
