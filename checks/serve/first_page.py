"""The commands of the first page, as it has them, and what it says that they write."""

import os
import re
import shutil
import subprocess

from service import PATIENCE, Service, Wrong, run

TOP = os.path.dirname(os.path.dirname(os.path.dirname(os.path.realpath(__file__))))
PORT = "8080"
WELCOME = "<!doctype html>\n<title>Welcome ann</title>\n<h1>Welcome ann</h1>\n"


def blocks():
    """The indented blocks of the section."""
    with open(os.path.join(TOP, "README.md"), encoding="utf-8") as file:
        section = file.read().partition("## The shop on a port\n")[2].partition("\n## ")[0]
    found = re.findall(r"(?:^    .*\n)+", section, re.M)
    return ["".join(line[4:] + "\n" for line in it.splitlines()) for it in found]


def play(commands, service):
    """What a shell writes that is given these commands of the page, on its outputs. What they leave runs on."""
    text = commands.replace(PORT, str(service.port)).replace("./crash try", service.program)
    told = os.path.join(service.room, "told")
    with open(told, "wb") as file:
        words = ["bash", "-eu", "-c", f"{text}jobs -p > jobs\n"]
        shell = run(words, cwd=service.room, stdout=file, stderr=file)
    if shell.wait(PATIENCE):
        raise Wrong(f"{text}ends with status {shell.returncode}")
    with open(told, encoding="utf-8") as file:
        return file.read()


def check(program, room):
    """The key is made, the server started and asked, and a form sent, each block as a whole."""
    if not shutil.which("curl"):
        return "no curl, by which the first page asks"
    service = Service(program, room)
    begins, shows, sends = blocks()
    seen = play(begins, service)
    with open(os.path.join(room, "jobs"), encoding="utf-8") as file:
        (number,) = map(int, file.read().split())
    try:
        if seen != shows.replace(PORT, str(service.port)):
            raise Wrong(f"the first page shows\n{shows}and not\n{seen}")
        seen = play(sends, service)
        if seen != WELCOME:
            raise Wrong(f"the form of the first page is answered\n{seen}")
    finally:
        os.kill(number, 9)
    return "the first page's commands"
