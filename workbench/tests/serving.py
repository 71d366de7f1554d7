"""A server of `serve` in this process, and requests to it."""

from __future__ import annotations

import argparse
import contextlib
import http.client
import json
import os
import shutil
import tempfile
import threading
from typing import Any, Iterator

from common import example_path

from nooks_bench import serve
from nooks_bench.serve_requests import Server


class Site:
    """A server with its folder."""

    def __init__(self, server: Server, folder: str) -> None:
        self.server = server
        self.folder = folder

    @property
    def token(self) -> str:
        return self.server.served.token

    @property
    def host(self) -> str:
        return f"127.0.0.1:{self.server.server_port}"

    @property
    def address(self) -> str:
        return self.server.first_address

    def path(self, name: str) -> str:
        return os.path.join(self.folder, name)

    def put(self, name: str, text: str) -> None:
        os.makedirs(os.path.dirname(self.path(name)), exist_ok=True)
        with open(self.path(name), "w", encoding="utf-8") as file:
            file.write(text)

    def text(self, name: str) -> str:
        with open(self.path(name), encoding="utf-8") as file:
            return file.read()

    def request(self, method: str, path: str, body: bytes | None = None, **headers: str | None) -> tuple[int, str]:
        """Sends a request with changed headers, None to omit one; returns the status and the text."""
        named = {name.replace("_", "-"): value for name, value in headers.items()}
        sent = {"Host": self.host, "X-Nooks-Token": self.token, "Content-Type": "application/json", **named}
        connection = http.client.HTTPConnection("127.0.0.1", self.server.server_port, timeout=300)
        try:
            connection.putrequest(method, path, skip_host=True, skip_accept_encoding=True)
            if body is not None and "Content-Length" not in named:
                sent["Content-Length"] = str(len(body))
            for name, value in sent.items():
                if value is not None:
                    connection.putheader(name, value)
            connection.endheaders()
            if body is not None:
                connection.send(body)
            answer = connection.getresponse()
            return answer.status, answer.read().decode()
        finally:
            connection.close()

    def ask(self, path: str, given: Any, **headers: str | None) -> tuple[int, dict[str, Any]]:
        status, text = self.request("POST", path, json.dumps(given).encode(), **headers)
        return status, json.loads(text)

    def work(self, task: str, file: str = "", **more: Any) -> dict[str, Any]:
        """The answer to a task, on a file of the folder if no texts are given."""
        texts = more.pop("texts", None)
        if texts is None:
            texts = {file: self.text(file)} if task != "open" else {}
        status, made = self.ask("/work", {"task": task, "file": file, "texts": texts, **more})
        assert status == 200, made
        return made


@contextlib.contextmanager
def site(*examples: str, seconds: float = 240.0) -> Iterator[Site]:
    """A server on a new folder with copies of some examples."""
    with tempfile.TemporaryDirectory() as above:
        folder = os.path.join(above, "folder")
        os.mkdir(folder)
        for name in examples:
            shutil.copy(example_path(name), folder)
        server = serve.serve(argparse.Namespace(program=None, folder=folder, port=0, seconds=seconds))
        thread = threading.Thread(target=server.serve_forever, kwargs={"poll_interval": 0.05})
        thread.start()
        try:
            yield Site(server, folder)
        finally:
            server.shutdown()
            thread.join()
            server.served.runs.end_all()
            server.server_close()
