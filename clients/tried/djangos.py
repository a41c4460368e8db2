"""Django's development server, which starts anew after edits."""

import socket
import time
import urllib.error
import urllib.request
from typing import Callable, List

from tried.packages import PYTHON
from tried.room import PATIENCE, Outcome, Room, Running, outcome
from waiting import look_until

ROUNDS = 20
# How long a server is waited for before an edit, and an edit before it is made again.
BEFORE, TOO_LONG = 1.0, 8.0
ATTEMPTS = 4
SETTINGS = """
from pathlib import Path
SECRET_KEY, DEBUG, ROOT_URLCONF, ALLOWED_HOSTS = "x", True, "urls", ["*"]
TEMPLATES = [{"BACKEND": "django.template.backends.django.DjangoTemplates",
              "DIRS": [str(Path(__file__).parent / "pages")]}]
"""
URLS = """
import os
from django.http import HttpResponse
from django.template.loader import render_to_string
from django.urls import path
import words
%s

def page(request):
    return HttpResponse(" ".join([words.WORD, render_to_string("page.html").strip(), str(os.getpid()), %s]))

urlpatterns = [path("", page)]
"""
MANAGE = """
import os, sys
from django.core.management import execute_from_command_line
os.environ["DJANGO_SETTINGS_MODULE"] = "settings"
execute_from_command_line(sys.argv)
"""


class Site:
    """A site with one page, which shows a word of a module, a template, the server's process and a word of a later
    module."""

    def __init__(self, room: Room) -> None:
        self.room = room
        # How many edits were made again.
        self.again = 0
        for name, text in (("settings.py", SETTINGS), ("manage.py", MANAGE), ("urls.py", URLS % ("", "''"))):
            room.put(f"site/{name}", text)
        self.put_word("w0")
        room.put("site/pages/page.html", "p0")
        with socket.socket() as free:
            free.bind(("127.0.0.1", 0))
            self.port = int(free.getsockname()[1])

    def put_word(self, word: str, attempt: int = 0) -> None:
        self.room.put("site/words.py", f"WORD = '{word}'{' ' * attempt}\n")

    def page(self) -> List[str]:
        """The words of the page; none while the server starts."""
        try:
            with urllib.request.urlopen(f"http://127.0.0.1:{self.port}/", timeout=5) as answer:
                return str(answer.read().decode()).split(" ")
        except (OSError, urllib.error.URLError):
            return []

    def shows(self, place: int, word: str, seconds: float = PATIENCE) -> List[str]:
        """The page, as soon as it has this word at this place."""
        return look_until(self.page, lambda page: page[place : place + 1] == [word], seconds)

    def shows_after(self, put: Callable[[int], None], place: int, word: str) -> List[str]:
        """The page after an edit. A server that has just started serves before it looks for edits, so one that is too
        early is made again."""
        time.sleep(BEFORE)
        for attempt in range(ATTEMPTS):
            put(attempt)
            self.again += attempt > 0
            page = self.shows(place, word, TOO_LONG)
            if page[place : place + 1] == [word]:
                return page
        return []


def try_django(room: Room) -> Outcome:
    (room.project / ".git").mkdir()
    site = Site(room)
    server = room.begin([PYTHON, "-u", "site/manage.py", "runserver", f"127.0.0.1:{site.port}"], "django")
    try:
        first = site.shows(0, "w0")
        reloader = any("WatchmanReloader" in line for line in server.lines())
        restarts = edits(site, first)
        found = [reloader, restarts, *with_new_module(site)]
    finally:
        end_of(server, room)
    done = (
        f"`WatchmanReloader` is taken; {ROUNDS} rounds: it starts anew after an edit of a module and shows an "
        f"edited "
        f"template; it starts anew for a new module, and after an edit of that; {site.again} edits were too early "
        f"and made again"
    )
    return outcome(done, found, [True, ROUNDS, "n0", "n1"])


def edits(site: Site, page: List[str]) -> int:
    """How many of the rounds showed both edits, the module's by a new process."""
    count = 0
    for number in range(1, ROUNDS + 1):
        process = page[2:3]
        site.room.put("site/pages/page.html", f"p{number}")
        site.shows(1, f"p{number}", TOO_LONG)
        page = site.shows_after(lambda attempt: site.put_word(f"w{number}", attempt), 0, f"w{number}")
        count += page[:2] == [f"w{number}", f"p{number}"] and page[2:3] != process
    return count


def with_new_module(site: Site) -> List[str]:
    """The word of a module that is new, and its word after an edit."""
    site.room.put("site/newer.py", "NEW = 'n0'\n")
    urls = URLS % ("import newer", "newer.NEW")
    page = site.shows_after(lambda attempt: site.room.put("site/urls.py", urls + " " * attempt) and None, 3, "n0")
    later = site.shows_after(
        lambda attempt: site.room.put("site/newer.py", f"NEW = 'n1'{' ' * attempt}\n") and None, 3, "n1"
    )
    return [*page[3:4], *later[3:4]]


def end_of(server: Running, room: Room) -> None:
    """The server that serves is a child of the one that was started."""
    room.run(
        [
            "sh",
            "-c",
            'for child in $(cat /proc/$1/task/$1/children); do kill "$child"; done',
            "sh",
            str(server.process.pid),
        ]
    )
    server.end()
