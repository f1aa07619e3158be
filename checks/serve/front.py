"""nginx in front of the server, by deploy/nginx.conf, where there are nginx and openssl."""

import http.client
import os
import shutil
import signal
import ssl
import subprocess
import time
from concurrent.futures import ThreadPoolExecutor
from urllib.parse import urlencode

from service import HOST, PAIRS, PATIENCE, Browser, Response, Service, Wrong, end, expect, free_port, run

TOP = os.path.dirname(os.path.dirname(os.path.dirname(os.path.realpath(__file__))))
NAME = "shop.example"
GUESSES = 16
FORMS = 60
ASIDE = "/usr/sbin/nginx"


def certify(room):
    """Makes a certificate that nobody trusts."""
    words = ["openssl", "req", "-x509", "-newkey", "rsa:2048", "-nodes", "-days", "2", "-subj", f"/CN={NAME}"]
    words += ["-keyout", f"{room}/shop.key", "-out", f"{room}/shop.pem"]
    subprocess.run(words, stderr=subprocess.DEVNULL, check=True)


def configure(room, server, plain, secret):
    """Writes the configuration with the ports and the folder of this check."""
    with open(os.path.join(TOP, "deploy/nginx.conf"), encoding="utf-8") as file:
        text = file.read()
    for old, new in (
        ("/etc/ssl/shop.pem", f"{room}/shop.pem"),
        ("/etc/ssl/private/shop.key", f"{room}/shop.key"),
        ("/var/log/nginx/", f"{room}/"),
        ("server 127.0.0.1:8080 ", f"server {HOST}:{server} "),
        ("listen 80;", f"listen {HOST}:{plain};"),
        ("listen 443 ", f"listen {HOST}:{secret} "),
    ):
        if text.count(old) == 0:
            raise Wrong(f"deploy/nginx.conf lacks {old}")
        text = text.replace(old, new)
    with open(f"{room}/nginx.conf", "w", encoding="utf-8") as file:
        file.write(f"pid {room}/pid;\n{text}")


class SecureBrowser(Browser):
    """A browser that comes by TLS to nginx, each time anew, and knows its cookie as one for TLS alone."""

    def ask(self, method, target, pairs=None, tries=2):
        untrusted = ssl._create_unverified_context()
        asking = http.client.HTTPSConnection(HOST, self.port, timeout=PATIENCE, context=untrusted)
        head = {"Host": NAME, **({"Cookie": f"crash={self.cookie}"} if self.cookie else {})}
        body = None
        if pairs is not None:
            head["Content-Type"], body = PAIRS, urlencode(pairs)
        asking.request(method, target, body, head)
        told = asking.getresponse()
        fields = [(name.lower(), value) for name, value in told.getheaders()]
        answer = Response(told.status, told.reason, fields, told.read().decode())
        asking.close()
        cookie = answer.field("set-cookie")
        if cookie and not cookie.endswith("; HttpOnly; Secure; SameSite=Lax"):
            raise Wrong(f"nginx sets a cookie by {cookie}")
        self.keep(cookie and cookie.replace("; Secure; SameSite=Lax", ""))
        return answer


def is_sent_to_tls(port):
    asking = http.client.HTTPConnection(HOST, port, timeout=PATIENCE)
    asking.request("GET", "/item/1", headers={"Host": NAME})
    told = asking.getresponse()
    if (told.status, told.getheader("Location")) != (301, f"https://{NAME}/item/1"):
        raise Wrong(f"nginx answers plain HTTP by {told.status} to {told.getheader('Location')}")
    asking.close()


def limits_guesses(port):
    """Of many who sign in at once some are stopped for a while; pages are not."""
    browser = SecureBrowser(port)
    form = browser.form("signin")

    def guess(number):
        other = SecureBrowser(port)
        other.cookie = browser.cookie
        return other.fill(form, {"name": "ann", "password": str(number)}).status

    with ThreadPoolExecutor(GUESSES) as pool:
        told = list(pool.map(guess, range(GUESSES)))
    if set(told) != {403, 429}:
        raise Wrong(f"{GUESSES} guesses of a password are answered {told}")
    if browser.get("/categories").status != 200:
        raise Wrong("nginx limits pages")


def limits_forms(port):
    """Of many forms asked for at once some are not given, though each comes with a cookie, which nobody gave."""

    def ask(_):
        other = SecureBrowser(port)
        other.cookie = "x"
        return other.get("/form/signin").status

    with ThreadPoolExecutor(GUESSES) as pool:
        told = list(pool.map(ask, range(FORMS)))
    if set(told) != {200, 429}:
        raise Wrong(f"{FORMS} forms asked for with a cookie of no good are answered {told}")


def check(program, room):
    """A customer by TLS, limits, a restart of the server, and a connection that it had ended."""
    if not (shutil.which("nginx") or os.path.exists(ASIDE)) or not shutil.which("openssl"):
        return "no nginx with openssl"
    service = Service(program, room, 64).start()
    plain, secret = free_port(), free_port()
    certify(room)
    configure(room, service.port, plain, secret)
    words = [shutil.which("nginx") or ASIDE, "-p", room, "-c", f"{room}/nginx.conf", "-g", "daemon off;"]
    # By this signal its processes end with it.
    nginx = run(words, signal.SIGTERM, stderr=subprocess.DEVNULL)
    try:
        return through(service, plain, secret)
    finally:
        end(nginx)


def through(service, plain, secret):
    """What a customer meets."""
    ann, begun = SecureBrowser(secret), time.monotonic()
    while True:
        try:
            expect(ann.get("/"), 200, "Auctions", "Signed out", ("/categories", "Categories"))
            break
        except OSError:
            if time.monotonic() > begun + PATIENCE:
                raise Wrong("nginx does not listen")
            time.sleep(0.05)
    is_sent_to_tls(plain)
    expect(ann.send("register", name="ann", password="x"), 200, "Welcome ann")
    expect(ann.send("category", name="Maps"), 200, "Category 1")
    form = ann.form("sell")
    service.kill()
    away = expect(ann.get("/"), 503, "Try again")
    if away.field("retry-after") != "1":
        raise Wrong("nginx does not say when to try again")
    service.start()
    sold = {"title": "Atlas", "category": 1, "start": 1, "buy_now": 0, "hours": 1}
    expect(ann.fill(form, sold), 409, "Form is old")
    expect(ann.get("/"), 403, "Session lost")
    expect(ann.send("signin", name="ann", password="x"), 200, "Welcome ann")
    expect(ann.send("sell", **sold), 200, "Item 1")
    if ann.ask("POST", "/bid", {"text": "x" * 70_000}).status != 413:
        raise Wrong("nginx takes a body over its limit")
    limits_guesses(secret)
    limits_forms(secret)
    service.kill()
    return "a customer by TLS through nginx"
