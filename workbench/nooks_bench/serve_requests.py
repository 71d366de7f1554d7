"""The requests that the server of `serve` answers: the page for anyone who knows the token, and JSON for that page
only."""

from __future__ import annotations

import hmac
import json
import socket
import time
from dataclasses import dataclass
from http.server import BaseHTTPRequestHandler, ThreadingHTTPServer
from typing import Any
from urllib.parse import SplitResult, parse_qs, urlsplit

from .program import Mistake
from .serve_folder import READ, Folder, Outside, steps_of
from .serve_runs import Ended, Gone, Runs

# The tasks of a run; serve_work.py does them.
TASKS = ("open", "check", "run", "place", "schedule", "map", "explore", "make")

ADDRESS = "127.0.0.1"
NAMES = (ADDRESS, "localhost")

# The most bytes of a request: a scenario, and the texts of its drivers.
MOST_BODY = 4 * 2**20

# How much of a request that is too large is read and discarded, so that its sender gets the answer.
MOST_DRAINED = 64 * 2**20

# How long a request may take to arrive, in seconds.
PATIENCE = 20

TOKEN = "X-Nooks-Token"

# The headers of every answer.
HEADERS = {
    "Cache-Control": "no-store",
    "X-Content-Type-Options": "nosniff",
    "X-Frame-Options": "DENY",
    "Referrer-Policy": "no-referrer",
    "Cross-Origin-Opener-Policy": "same-origin",
    "Cross-Origin-Resource-Policy": "same-origin",
}


class Refused(Exception):
    """A request that is refused, with the status of HTTP."""

    def __init__(self, status: int, text: str) -> None:
        super().__init__(text)
        self.status = status


@dataclass(frozen=True)
class Served:
    """What a server has: its folder, its runs, its token, and the page with the policy of its scripts."""

    folder: Folder
    runs: Runs
    token: str
    page: str
    policy: str


def split_address(address: str) -> SplitResult:
    """Splits a request's address."""
    try:
        return urlsplit(address)
    except ValueError as error:
        raise Refused(400, "this is no address") from error


class Server(ThreadingHTTPServer):
    """Listens on this machine's own address only."""

    daemon_threads = True
    allow_reuse_address = False

    def __init__(self, port: int, served: Served) -> None:
        self.served = served
        super().__init__((ADDRESS, port), Requests)

    @property
    def first_address(self) -> str:
        return f"http://{ADDRESS}:{self.server_port}/?token={self.served.token}"

    def handle_error(self, request: Any, client_address: Any) -> None:
        """Ignores a connection that breaks, which is not an error of the server."""


class Requests(BaseHTTPRequestHandler):
    """Answers one request."""

    server: Server
    timeout = PATIENCE
    server_version = "nooks-bench"
    sys_version = ""

    @property
    def served(self) -> Served:
        return self.server.served

    def log_message(self, format: str, *args: Any) -> None:
        """Logs nothing, since addresses have the token."""

    def do_GET(self) -> None:
        try:
            self.check_sender()
            address = split_address(self.path)
            self.check_token(parse_qs(address.query).get("token", [""])[0])
            if address.path != "/":
                raise Refused(404, "there is nothing here: the page is at /")
            self.put(200, "text/html; charset=utf-8", self.served.page, {"Content-Security-Policy": self.served.policy})
        except Refused as refused:
            self.put(refused.status, "text/plain; charset=utf-8", f"nooks-bench serve: {refused}\n")

    def do_POST(self) -> None:
        try:
            self.check_sender()
            self.check_token(self.headers.get(TOKEN, ""))
            given = self.body()
            status, made = self.made(self.path, given)
        except Refused as refused:
            status, made = refused.status, {"refused": {"text": str(refused)}}
        except Gone:
            return
        self.put(status, "application/json", json.dumps(made))

    # Checks that come before everything else.

    def check_sender(self) -> None:
        """Refuses another host's name, which a page elsewhere may have given to this address, and another origin."""
        hosts = [f"{name}:{self.server.server_port}" for name in NAMES]
        if self.headers.get_all("Host") not in [[host] for host in hosts]:
            raise Refused(403, f"this server is {hosts[0]}, and answers to no other name")
        origins = self.headers.get_all("Origin") or []
        if not set(origins) <= {f"http://{host}" for host in hosts}:
            raise Refused(403, "a page of another origin is not answered")

    def check_token(self, token: str) -> None:
        if not hmac.compare_digest(token.encode(), self.served.token.encode()):
            raise Refused(403, "the token is missing, or is not this server's: open the address that it printed")

    def body(self) -> dict[str, Any]:
        """Returns the JSON of a request."""
        if self.headers.get("Content-Type", "").split(";")[0].strip() != "application/json":
            raise Refused(415, "a request is JSON")
        length = self.headers.get("Content-Length", "")
        if not length.isdecimal():
            raise Refused(411, "a request says how long it is")
        if len(length) > 15 or int(length) > MOST_BODY:
            self.drain(int(length[:15]))
            raise Refused(413, f"the request has more than {MOST_BODY >> 20} MB: a scenario with its drivers has less")
        try:
            given = json.loads(self.rfile.read(int(length)))
            json.dumps(given, ensure_ascii=False).encode()
        except (ValueError, RecursionError) as error:
            raise Refused(400, "the request is no JSON, or has a text that is no UTF-8") from error
        except OSError as error:
            raise Refused(408, "the request did not come") from error
        if not isinstance(given, dict):
            raise Refused(400, "a request is an object")
        return given

    def drain(self, length: int) -> None:
        """Reads and discards the rest of a request, a piece at a time."""
        left, ends = min(length, MOST_DRAINED), time.monotonic() + PATIENCE
        try:
            while left > 0 and time.monotonic() < ends and (more := self.rfile.read(min(left, 1 << 16))):
                left -= len(more)
        except OSError:
            return

    # Answers.

    def made(self, path: str, given: dict[str, Any]) -> tuple[int, dict[str, Any]]:
        """Returns the answer to a request, with its status of HTTP."""
        try:
            if path == "/files":
                return 200, {"made": {"files": self.served.folder.files()}}
            if path == "/save":
                return 200, {"made": self.saved(given)}
            if path == "/work":
                return 200, self.worked(given)
        except Outside as outside:
            return 403, {"refused": {"text": str(outside)}}
        except Ended as ended:
            return 200, {"ended": {"text": str(ended)}}
        except Mistake as mistake:
            return 200, {"refused": {"text": str(mistake)}}
        raise Refused(404, "there is nothing of this name")

    def saved(self, given: dict[str, Any]) -> dict[str, Any]:
        """Writes a file, and returns the hash that identifies its text."""
        name, text, was = (given.get(key) for key in ("name", "text", "was"))
        if not isinstance(name, str) or not isinstance(text, str) or not isinstance(was, (str, type(None))):
            raise Refused(400, "a file has a name and a text")
        return {"name": name, "was": self.served.folder.write(name, text, was)}

    def worked(self, given: dict[str, Any]) -> dict[str, Any]:
        """Returns what a run answers. A file that it makes is written here."""
        file, texts = given.get("file"), given.get("texts")
        if given.get("task") not in TASKS or not isinstance(file, str) or not isinstance(texts, dict):
            raise Refused(400, "a run has a task, a file and texts")
        if not all(isinstance(text, str) for text in texts.values()):
            raise Refused(400, "a text is a text")
        if given["task"] != "open" and file not in texts:
            raise Refused(400, "the texts have no scenario")
        for name in (file, *texts):
            steps_of(name, READ)
        page: socket.socket = self.connection
        made = self.served.runs.answer(given, page)
        if given.get("task") == "make" and "made" in made:
            name = str(given.get("name"))
            self.served.folder.write(name, made["made"]["text"], None if given.get("over") else "")
            return {"made": {"name": name}}
        return made

    def put(self, status: int, kind: str, text: str, more: dict[str, str] | None = None) -> None:
        """Writes an answer. The reader may be gone."""
        data = text.encode()
        try:
            self.send_response(status)
            about = {"Content-Type": kind, "Content-Length": str(len(data)), **HEADERS, **(more or {})}
            for name, value in about.items():
                self.send_header(name, value)
            self.end_headers()
            self.wfile.write(data)
        except OSError:
            self.close_connection = True
