"""Clients that are slow or do nothing, and others beside them. What docs/OPERATING.md says of them."""

import threading
import time
from functools import partial

from service import Browser, Closed, Connection, Service, Wrong, expect

IDLE, MANY = 200, 1000
HOME = ("Auctions", "Signed out", ("/categories", "Categories"))
# How long a client may take for a request, or for a response, and how long a connection may be idle, in seconds; and
# how much later than that a busy machine may be.
PATIENCE, MINUTE, LATE = 10, 60, 20
# How long behind the end of a connection its worker is there for others, at the latest: a second, and two for a busy
# machine; and how long a client that goes on sending pauses.
SOON, PAUSE = 3, 0.05


def seconds_to_end(connection, begun):
    """How long after a moment a connection is ended."""
    connection.socket.settimeout(MINUTE + LATE + 10)
    while True:
        try:
            connection.hear()
        except Closed:
            return time.monotonic() - begun


def trickles(service, text):
    """Sends a request, a byte every half second. It is cut ten seconds behind its first byte."""
    connection, begun = Connection(service.port), time.monotonic()
    connection.socket.settimeout(0.5)
    for byte in text:
        try:
            connection.send(bytes([byte]))
            if connection.is_ended():
                break
        except Closed:
            break
    took = time.monotonic() - begun
    connection.close()
    if not PATIENCE - 1 <= took <= PATIENCE + LATE:
        raise Wrong(f"a client that trickles is cut after {took:.1f} seconds")


def trickles_head(service):
    trickles(service, b"GET / HTTP/1.1\r\nHost: " + b"x" * 80)


def trickles_body(service):
    trickles(service, b"POST /bid HTTP/1.1\r\nContent-Length: 80\r\n\r\n" + b"x" * 80)


def takes_nothing(service):
    """Asks for page after page and reads none. The server gives it up, and so it reads fewer than it asked for."""
    connection, asked = Connection(service.port), 0
    connection.socket.settimeout(PATIENCE + LATE)
    pages = b"GET / HTTP/1.1\r\n\r\n" * 1000
    begun = time.monotonic()
    try:
        while time.monotonic() < begun + PATIENCE + LATE:
            connection.send(pages)
            asked += 1000
    except (Closed, OSError):
        pass
    took = time.monotonic() - begun
    answered = 0
    try:
        while True:
            connection.response()
            answered += 1
    except Closed:
        pass
    connection.close()
    if answered >= asked or took < PATIENCE - 1:
        raise Wrong(f"a client that read nothing for {took:.1f} seconds is answered {answered} of {asked} requests")


def idles(service):
    """Does nothing behind a page. It is ended after a minute."""
    connection = Connection(service.port)
    connection.send(b"GET / HTTP/1.1\r\n\r\n")
    expect(connection.response(), 200, *HOME)
    took = seconds_to_end(connection, time.monotonic())
    connection.close()
    if not MINUTE - 2 <= took <= MINUTE + LATE:
        raise Wrong(f"an idle connection is ended after {took:.1f} seconds")


def never_asks(service):
    """Opens a connection and says nothing. It is ended after a minute."""
    connection = Connection(service.port)
    took = seconds_to_end(connection, time.monotonic())
    connection.close()
    if not MINUTE - 2 <= took <= MINUTE + LATE:
        raise Wrong(f"a connection without a request is ended after {took:.1f} seconds")


def asks_much(service):
    """Asks for a thousand pages, one by one, and pauses. Its connection is ended soon, and not only after a minute."""
    connection = Connection(service.port)
    for _ in range(MANY):
        connection.send(b"GET / HTTP/1.1\r\n\r\n")
        expect(connection.response(), 200, *HOME)
    took = seconds_to_end(connection, time.monotonic())
    connection.close()
    if took > LATE:
        raise Wrong(f"a connection that has made {MANY} requests is ended after {took:.1f} seconds")


def works_beside(service):
    """Asks for pages while many connections do nothing: each is answered."""
    crowd = [Connection(service.port) for _ in range(IDLE)]
    begun, browser = time.monotonic(), Browser(service.port)
    for _ in range(50):
        expect(browser.get("/"), 200, *HOME)
    took = time.monotonic() - begun
    browser.leave()
    for connection in crowd:
        connection.close()
    if took > PATIENCE + LATE:
        raise Wrong(f"fifty pages beside {IDLE} idle connections took {took:.1f} seconds")


def is_sent(connection, data):
    """Sends bytes, unless the server has ended the connection."""
    try:
        connection.send(data)
        return True
    except Closed:
        return False


def ends_late(connection, begun):
    """Trickles on, and sends much at last. When its connection is ended, since its request takes too long to come."""
    connection.socket.settimeout(PAUSE)
    much, data = [b"x" * 5000], b"x"
    while not connection.is_ended() and is_sent(connection, data):
        data = much.pop() if much and time.monotonic() > begun + PATIENCE - 2 * PAUSE else b"x"
    ended = time.monotonic()
    if ended < begun + PATIENCE - 1:
        raise Wrong(f"a client that trickles is cut after {ended - begun:.1f} seconds")
    return ended


def ends_refused(connection, begun):
    """When it is answered that its body is too large, and so its connection is ended."""
    answer = connection.response()
    if (answer.status, answer.field("connection")) != (413, "close"):
        raise Wrong(f"a body over the limit is answered {answer}")
    return time.monotonic()


LATE_POST = (b"POST /bid HTTP/1.1\r\nContent-Length: 60000\r\n\r\n", ends_late)
LARGE_POST = (b"POST /bid HTTP/1.1\r\nContent-Length: 70000\r\n\r\n" + b"x" * 60_000, ends_refused)


def goes_on_sending(service, first, until_ended):
    """Sends on when its connection was ended. It holds its worker for little longer: the only one of this server, by
    which another client is answered soon."""
    answered = []

    def ask():
        expect(Browser(service.port).get("/"), 200, *HOME)
        answered.append(time.monotonic())

    connection, other = Connection(service.port), threading.Thread(target=ask)
    connection.send(first)
    begun = time.monotonic()
    time.sleep(PAUSE)
    other.start()
    ended = until_ended(connection, begun)
    while other.is_alive() and is_sent(connection, b"x"):
        other.join(PAUSE)
    other.join()
    connection.close()
    if not answered or answered[0] > ended + SOON:
        late = f"{answered[0] - ended:.1f} seconds later" if answered else "wrongly"
        raise Wrong(f"a client goes on sending behind the end of its connection, and another is answered {late}")


def in_threads(calls):
    """Makes each call in a thread of its own."""
    faults = []

    def keep_fault(call):
        try:
            call()
        except Exception as fault:
            faults.append(fault)

    threads = [threading.Thread(target=keep_fault, args=(it,)) for it in calls]
    for thread in threads:
        thread.start()
    for thread in threads:
        thread.join()
    if faults:
        raise faults[0]


def check(program, room):
    """A crowd at one server; the slow and the idle at another, which has a worker for each and one more; and those who
    go on sending at one each, which has a worker alone."""
    crowded = Service(program, f"{room}/idle").start()
    begun = time.monotonic()
    works_beside(crowded)
    took = time.monotonic() - begun
    crowded.kill()
    patient = Service(program, f"{room}/slow").start()
    late, much = (Service(program, f"{room}/{it}", workers=1).start() for it in ("late", "much"))
    calls = [trickles_head, trickles_body, takes_nothing, idles, never_asks, asks_much]
    on = [partial(goes_on_sending, late, *LATE_POST), partial(goes_on_sending, much, *LARGE_POST)]
    in_threads([partial(it, patient) for it in calls] + on)
    expect(Browser(patient.port).get("/"), 200, *HOME)
    for service in (patient, late, much):
        service.kill()
    beside = f"fifty pages beside {IDLE} idle connections in {took:.1f} s"
    return f"clients that trickle, read nothing, go on sending, are idle or ask much, and {beside}"
