"""A server of the program, in a folder and on a port of its own, and the browsers that ask it.

Nothing here knows what a page says: only how HTTP, cookies and forms go, as docs/HTTP.md has them."""

import atexit
import html
import os
import random
import re
import shutil
import signal
import socket
import subprocess
import time
from collections import namedtuple
from urllib.parse import urlencode

try:
    import sqlite3
except ImportError:
    sqlite3 = None

# Ports that the system gives to no client by itself.
PORTS = range(18_000, 32_000)
HOST = "127.0.0.1"
PATIENCE = 60
PAIRS = "application/x-www-form-urlencoded"
TOKEN = re.compile(r'name="token" value="([0-9a-f]{56})"')
SENT_TO = re.compile(r'<form method="post" action="([^"]*)">')
FIELD = re.compile(r'<label>\w+ <input name="(\w+)"></label>')

# Each process that was started and not ended yet, with the signal that ends it.
running = {}


def run(words, ends_by=signal.SIGKILL, **how):
    """Starts a process, which is ended at the end of the checks where it was not ended before."""
    process = subprocess.Popen(words, stdin=subprocess.DEVNULL, **how)
    running[process] = ends_by
    return process


def end(process):
    """Ends one of our processes, and waits until it is gone."""
    process.send_signal(running.get(process, signal.SIGKILL))
    process.wait()
    running.pop(process, None)


@atexit.register
def end_all():
    for process in list(running):
        end(process)


class Wrong(Exception):
    """What the program did is not what the pages say."""


def free_port():
    """A port on which nobody listens now, and that nobody is given by chance."""
    while True:
        port = random.choice(PORTS)
        with socket.socket() as trial:
            trial.setsockopt(socket.SOL_SOCKET, socket.SO_REUSEADDR, 1)
            try:
                trial.bind((HOST, port))
                return port
            except OSError:
                continue


class Service:
    """A server that may be started and ended again and again, over one file."""

    def __init__(self, program, room, workers=8):
        os.makedirs(room, exist_ok=True)
        self.program, self.room, self.workers, self.port, self.process = program, room, workers, free_port(), None
        self.file, self.key, self.log = (os.path.join(room, it) for it in ("shop.db", "key", "log"))
        with open(self.key, "wb") as key:
            key.write(os.urandom(32))

    def words(self):
        return [self.program, "serve", str(self.port), self.file, self.key, str(self.workers)]

    def launch(self, **how):
        """Starts it, and does not wait for it."""
        with open(self.log, "ab") as log:
            self.process = run(self.words(), stdout=log, stderr=log, **how)
        return self

    def start(self, **how):
        """Starts it, and waits until it tells that a boot has started."""
        before = self.boots()
        self.launch(**how)
        deadline = time.monotonic() + PATIENCE
        while self.boots() == before:
            if self.process.poll() is not None:
                raise Wrong(f"the server ended with status {self.process.returncode}, and wrote {self.lines()}")
            if time.monotonic() > deadline:
                raise Wrong(f"the server does not start, and writes {self.lines()}")
            time.sleep(0.005)
        return self

    def kill(self):
        end(self.process)

    def lines(self):
        """What it has told its operator so far."""
        with open(self.log, encoding="utf-8", errors="replace") as log:
            return log.read().splitlines()

    def boots(self):
        """How many boots it has told of."""
        return sum(line.startswith("boot ") for line in self.lines()) if os.path.exists(self.log) else 0

    def rows(self):
        """The rows of its file, by table and key. They are read off a copy, so the next start finds what it left."""
        copy = os.path.join(self.room, "copy.db")
        for end in ("", "-wal", "-shm"):
            if os.path.exists(copy + end):
                os.remove(copy + end)
            if end != "-shm" and os.path.exists(self.file + end):
                shutil.copyfile(self.file + end, copy + end)
        found = sqlite3.connect(copy)
        rows = {(t, int.from_bytes(k, "big")): v for t, k, v in found.execute("SELECT t, k, v FROM crash_rows")}
        found.close()
        return rows

    def put(self, table, key, data):
        """Puts a row into its file, by another program than the server, which is down."""
        other = sqlite3.connect(self.file)
        other.execute(
            "INSERT OR REPLACE INTO crash_rows (t, k, v) VALUES (?, ?, ?)", (table, key.to_bytes(8, "big"), data)
        )
        other.commit()
        other.close()


class Response(namedtuple("Response", "status reason fields page")):
    """A response: its fields are pairs, with their names in small letters."""

    def field(self, name):
        """The value of the one field of this name. None where there is none."""
        found = [value for key, value in self.fields if key == name]
        if len(found) > 1:
            raise Wrong(f"{name} stands {len(found)} times in a response")
        return found[0] if found else None


class Closed(Exception):
    """The server ended a connection before its response was whole."""


class Connection:
    """A connection, on which requests are answered in order."""

    def __init__(self, port, patience=PATIENCE):
        self.socket = socket.create_connection((HOST, port), patience)
        self.socket.setsockopt(socket.IPPROTO_TCP, socket.TCP_NODELAY, 1)
        self.heard = b""

    def send(self, data):
        try:
            self.socket.sendall(data)
        except OSError as error:
            raise Closed(str(error))

    def hear(self):
        """More bytes."""
        try:
            data = self.socket.recv(65536)
        except socket.timeout:
            raise Wrong("a request was not answered")
        except OSError as error:
            raise Closed(str(error))
        if not data:
            raise Closed("its end")
        self.heard += data

    def response(self, of_head=False):
        """The next response."""
        while b"\r\n\r\n" not in self.heard:
            self.hear()
        head, _, self.heard = self.heard.partition(b"\r\n\r\n")
        first, *rest = head.decode("latin-1").split("\r\n")
        version, status, reason = first.split(" ", 2)
        fields = [(name.lower(), value) for name, _, value in (it.partition(": ") for it in rest)]
        if version != "HTTP/1.1":
            raise Wrong(f"a response begins {first}")
        size = 0 if of_head else int(dict(fields)["content-length"])
        while len(self.heard) < size:
            self.hear()
        page, self.heard = self.heard[:size], self.heard[size:]
        return Response(int(status), reason, fields, page.decode())

    def is_ended(self):
        """Whether nothing comes any more, now or until the patience is over."""
        try:
            return self.socket.recv(65536) == b""
        except socket.timeout:
            return False
        except OSError:
            return True

    def close(self):
        self.socket.close()


def request(method, target, cookie=None, pairs=None, more=()):
    """The bytes of a request, as a browser writes them."""
    lines = [f"{method} {target} HTTP/1.1", f"Host: {HOST}"]
    lines += [f"Cookie: theme=dark; crash={cookie}"] if cookie else []
    lines += more
    body = urlencode(pairs) if pairs is not None else ""
    lines += [f"Content-Type: {PAIRS}", f"Content-Length: {len(body)}"] if pairs is not None else []
    return ("\r\n".join(lines) + "\r\n\r\n" + body).encode()


class Browser:
    """One who asks for pages and sends forms, with a cookie, over a connection that is opened again where it ended."""

    def __init__(self, port):
        self.port, self.cookie, self.connection = port, None, None

    def ask(self, method, target, pairs=None, tries=2):
        """The response to a request, which is sent once more where its connection had ended, as browsers do."""
        fresh = self.connection is None
        try:
            if fresh:
                self.connection = Connection(self.port)
            self.connection.send(request(method, target, self.cookie, pairs))
            answer = self.connection.response(method == "HEAD")
        except (Closed, OSError):
            self.leave()
            if fresh or tries < 2:
                raise
            return self.ask(method, target, pairs, tries - 1)
        if answer.field("connection") == "close":
            self.leave()
        self.keep(answer.field("set-cookie"))
        return answer

    def keep(self, set_cookie):
        """Keeps the cookie that a response sets, or forgets the one that it clears."""
        if set_cookie is None:
            return
        found = re.fullmatch(r"crash=([\w-]*); Path=/; Max-Age=(1800|0); HttpOnly", set_cookie)
        if not found or bool(found[1]) != (found[2] == "1800"):
            raise Wrong(f"a cookie is set by {set_cookie}")
        self.cookie = found[1] or None

    def leave(self):
        if self.connection:
            self.connection.close()
        self.connection = None

    def get(self, target):
        return self.ask("GET", target)

    def form(self, kind):
        """The form of a kind: where it is sent to, its token, and the names of its fields."""
        shown = self.get(f"/form/{kind}")
        if shown.status != 200:
            raise Wrong(f"the form {kind} was answered {shown.status} {shown.page}")
        return html.unescape(SENT_TO.search(shown.page)[1]), TOKEN.search(shown.page)[1], FIELD.findall(shown.page)

    def fill(self, form, values):
        """Sends a form that was shown, with these values."""
        target, token, fields = form
        if fields != list(values):
            raise Wrong(f"the form that is sent to {target} asks for {fields}")
        return self.ask("POST", target, {"token": token, **values})

    def send(self, kind, **values):
        """Asks for the form of a kind, and sends it with these values."""
        return self.fill(self.form(kind), values)


LINK = '<p><a href="{}">{}</a></p>'


def page(heading, *lines):
    """A page: a line is a text, or a pair of an address and the text of the link there."""
    quoted = html.escape(heading).replace("&#x27;", "&#39;")
    written = [f"<!doctype html>\n<title>{quoted}</title>\n<h1>{quoted}</h1>\n"]
    for line in lines:
        text = html.escape(line if isinstance(line, str) else line[1]).replace("&#x27;", "&#39;")
        written.append(f"<p>{text}</p>\n" if isinstance(line, str) else LINK.format(line[0], text) + "\n")
    return "".join(written)


def expect(answer, status, heading, *lines):
    """That a response has this status, and this page exactly."""
    wanted = page(heading, *lines)
    if (answer.status, answer.page) != (status, wanted):
        raise Wrong(f"it was answered {answer.status}\n{answer.page}and not {status}\n{wanted}")
    return answer
