"""Sessions that end with their lease, and auctions that end with their hours, by a clock that is set ahead: a library
in front of the C library adds seconds to the time of day that the program is told."""

import mmap
import os
import shutil
import struct
import subprocess

from service import Browser, Service, Wrong, expect

LEASE, HOUR = 1800, 3600
LIBRARY = r"""
#define _GNU_SOURCE
#include <dlfcn.h>
#include <fcntl.h>
#include <stdlib.h>
#include <sys/mman.h>
#include <time.h>
#include <unistd.h>

static volatile long *ahead;

__attribute__((constructor)) static void begin(void) {
    int file = open(getenv("SECONDS_AHEAD"), O_RDONLY);
    ahead = mmap(0, sizeof *ahead, PROT_READ, MAP_SHARED, file, 0);
    if (ahead == MAP_FAILED) _exit(99);
    close(file);
}

int clock_gettime(clockid_t clock, struct timespec *now) {
    static int (*next)(clockid_t, struct timespec *);
    if (!next) next = (int (*)(clockid_t, struct timespec *))dlsym(RTLD_NEXT, "clock_gettime");
    int told = next(clock, now);
    if (!told && clock == CLOCK_REALTIME && ahead) now->tv_sec += *ahead;
    return told;
}
"""


class Ahead:
    """How many seconds the program's clock is ahead."""

    def __init__(self, room):
        self.name = os.path.join(room, "ahead")
        with open(self.name, "wb") as file:
            file.write(struct.pack("@l", 0))
        with open(self.name, "r+b") as file:
            self.seen = mmap.mmap(file.fileno(), 8)

    def set(self, seconds):
        self.seen[:8] = struct.pack("@l", seconds)


def build(room):
    source, library = os.path.join(room, "clock.c"), os.path.join(room, "clock.so")
    with open(source, "w") as file:
        file.write(LIBRARY)
    subprocess.run(["cc", "-O1", "-shared", "-fPIC", "-o", library, source, "-ldl"], check=True)
    return library


def check(program, room):
    """A session that is used goes on, one that is not used ends, and so does an auction."""
    if not shutil.which("cc"):
        return "no C compiler, by which the clock is set ahead"
    service, ahead = Service(program, room), Ahead(room)
    service.start(env={**os.environ, "LD_PRELOAD": build(room), "SECONDS_AHEAD": ahead.name})
    ann, ben = Browser(service.port), Browser(service.port)
    expect(ann.send("register", name="ann", password="x"), 200, "Welcome ann")
    expect(ann.send("category", name="Maps"), 200, "Category 1")
    expect(ann.send("sell", title="Atlas", category=1, start=1, buy_now=0, hours=1), 200, "Item 1")
    expect(ben.send("register", name="ben", password="x"), 200, "Welcome ben")
    signed_in = ("Auctions", "User 1", ("/categories", "Categories"))
    first = ann.cookie
    ahead.set(LEASE - 60)
    expect(ann.get("/"), 200, *signed_in)
    if ann.cookie == first:
        raise Wrong("a session is not written anew a minute before its end")
    ahead.set(LEASE + 60)
    expect(ann.get("/"), 200, *signed_in)
    kept = ben.cookie
    expect(ben.get("/"), 403, "Session expired")
    if not kept or ben.cookie:
        raise Wrong("the cookie of a session that has ended is not cleared")
    expect(ben.send("signin", name="ben", password="x"), 200, "Welcome ben")
    expect(ben.send("bid", item=1, amount=5), 200, "Bid 1 on item 1")
    ahead.set(HOUR + 30)
    expect(ben.send("bid", item=1, amount=6), 409, "Auction over")
    service.kill()
    return "a lease that is prolonged, one that ends, and an auction's end"
