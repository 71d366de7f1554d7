"""serve: what the server refuses, what it makes, and that it ends runs for which no page waits."""

import json
import os
import re
import shutil
import signal
import socket
import subprocess
import sys
import tempfile
import time
import unittest
import urllib.request

from common import HERE, bench, example, example_path, example_text, file_of, program
from race import racing_scenario
from serving import Site, site
from test_page import data_of, many_events

from nooks_bench import serve_requests, serve_work
from nooks_bench.build import built
from nooks_bench.program import Mistake
from nooks_bench.report import parse_report
from nooks_bench.scenario import with_faults
from nooks_bench.serve_folder import Folder, Outside
from nooks_bench.serve_texts import with_fault, with_files, with_schedule_text
from nooks_bench.source import Reader

TRAP = {"burst": 5, "after": 40, "kind": "trap"}


def ends(test: unittest.TestCase, is_so, seconds: float = 20) -> None:
    """Waits until a condition holds, and fails the test after some seconds."""
    last = time.monotonic() + seconds
    while not is_so():
        test.assertLess(time.monotonic(), last)
        time.sleep(0.02)


def is_alive(process: int) -> bool:
    """Whether a process exists and is not a zombie."""
    try:
        with open(f"/proc/{process}/stat", encoding="utf-8") as file:
            return file.read().rpartition(")")[2].split()[0] not in ("Z", "X")
    except (FileNotFoundError, ProcessLookupError):
        return False


def group(process: int) -> list[int]:
    """The live processes of a group."""
    found = []
    for name in filter(str.isdigit, os.listdir("/proc")):
        try:
            if os.getpgid(int(name)) == process and is_alive(int(name)):
                found.append(int(name))
        except ProcessLookupError:
            continue
    return found


class Refuses(unittest.TestCase):
    @classmethod
    def setUpClass(cls) -> None:
        cls.holder = site("write-cut.json", "block.asm")
        cls.site = cls.holder.__enter__()

    @classmethod
    def tearDownClass(cls) -> None:
        cls.holder.__exit__(None, None, None)

    def page(self, token: str | None = None, **headers: str | None) -> tuple[int, str]:
        query = f"/?token={self.site.token if token is None else token}"
        return self.site.request("GET", query, **headers)

    def test_the_page(self):
        status, text = self.page()
        self.assertEqual(status, 200)
        self.assertIn("<!doctype html>", text)

    def test_another_host(self):
        for host in ("example.org", f"example.org:{self.site.server.server_port}", "127.0.0.1", "127.0.0.1:1", "", None,
                     f"127.0.0.1:{self.site.server.server_port}.example.org"):
            with self.subTest(host=host):
                self.assertEqual(self.page(Host=host)[0], 403)
                self.assertEqual(self.site.ask("/files", {}, Host=host)[0], 403)
        self.assertEqual(self.page(Host=f"localhost:{self.site.server.server_port}")[0], 200)

    def test_another_origin(self):
        for origin in ("http://example.org", "null", f"https://{self.site.host}", "http://127.0.0.1:1", f"http://{self.site.host}.example.org"):
            with self.subTest(origin=origin):
                status, made = self.site.ask("/files", {}, Origin=origin)
                self.assertEqual((status, list(made)), (403, ["refused"]))
        self.assertEqual(self.site.ask("/files", {}, Origin=f"http://{self.site.host}")[0], 200)

    def test_a_preflight_of_another_origin_allows_nothing(self):
        status, text = self.site.request("OPTIONS", "/files", Origin="http://example.org", Access_Control_Request_Method="POST",
                                         Access_Control_Request_Headers="x-nooks-token")
        self.assertGreaterEqual(status, 400)

    def test_no_token(self):
        for token in ("", "x", self.site.token[:-1], self.site.token + "x", "\u00fc"):
            with self.subTest(token=token):
                self.assertEqual(self.page(token="%C3%BC" if token == "\u00fc" else token)[0], 403)
        for token in (None, "", "x"):
            status, made = self.site.ask("/work", {"task": "open", "file": "write-cut.json", "texts": {}}, X_Nooks_Token=token)
            self.assertEqual((status, list(made)), (403, ["refused"]))
        self.assertNotIn(self.site.token, self.page(token="x")[1])
        self.assertEqual(self.site.request("GET", "/")[0], 403)

    def test_tokens_differ(self):
        with site() as other:
            self.assertNotEqual(other.token, self.site.token)
            self.assertGreaterEqual(len(other.token), 32)

    def test_a_path_outside_the_folder(self):
        outside = os.path.join(os.path.dirname(self.site.folder), "outside.json")
        for name in ("../outside.json", "/etc/outside.json", outside, "a/../../outside.json", "./x.json", ".x.json", "a//x.json", "x.json\0", "x.json/",
                     "..", "", "x.py", "x", "x.json.sh", "a\\..\\x.json\n", "/".join("a" * 9) + ".json"):
            with self.subTest(name=name):
                status, made = self.site.ask("/save", {"name": name, "text": "{}", "was": ""})
                self.assertEqual((status, list(made)), (403, ["refused"]))
                status, made = self.site.ask("/work", {"task": "open", "file": name, "texts": {}})
                self.assertEqual((status, list(made)), (403, ["refused"]))
        self.assertFalse(os.path.exists(outside))

    def test_links_lead_nowhere(self):
        above = os.path.dirname(self.site.folder)
        secret = os.path.join(above, "secret.json")
        with open(secret, "w", encoding="utf-8") as file:
            file.write("{}")
        os.mkdir(os.path.join(above, "elsewhere"))
        os.symlink(secret, self.site.path("link.json"))
        os.symlink(os.path.join(above, "new.json"), self.site.path("dangling.json"))
        os.symlink(os.path.join(above, "elsewhere"), self.site.path("linked"))
        os.mkfifo(self.site.path("pipe.json"))
        os.mkdir(self.site.path("folder.json"))
        for name in ("link.json", "dangling.json", "linked/new.json", "pipe.json", "folder.json"):
            with self.subTest(name=name):
                status, made = self.site.ask("/save", {"name": name, "text": "[]", "was": None})
                self.assertEqual((status, list(made)), (403, ["refused"]))
                self.assertIn("refused", self.site.work("open", name))
        with open(secret, encoding="utf-8") as file:
            self.assertEqual(file.read(), "{}")
        self.assertEqual(os.listdir(os.path.join(above, "elsewhere")), [])
        self.assertFalse(os.path.exists(os.path.join(above, "new.json")))
        files = self.site.ask("/files", {})[1]["made"]["files"]
        self.assertEqual([name for name in files if name.startswith(("link", "dangling", "pipe", "folder"))], [])

    def test_a_driver_outside_the_folder(self):
        with open(os.path.join(os.path.dirname(self.site.folder), "secret.asm"), "w", encoding="utf-8") as file:
            file.write("a secret\n")
        os.symlink("../secret.asm", self.site.path("secret-link.asm"))
        scenario = example("write-cut.json")
        for name in ("../secret.asm", "/etc/passwd", "secret-link.asm"):
            with self.subTest(name=name):
                scenario["parts"][0]["driver"] = {"asm_file": name}
                made = self.site.work("run", "w.json", texts={"w.json": json.dumps(scenario)})
                self.assertEqual(list(made), ["refused"])
                self.assertNotIn("a secret", json.dumps(made))
                self.assertIn("line", made["refused"])

    def test_twenty_megabytes(self):
        status, text = self.site.request("POST", "/work", b" " * 20_000_000)
        self.assertEqual(status, 413)
        self.assertIn("more than 4 MB", json.loads(text)["refused"]["text"])
        status, _ = self.site.request("POST", "/save", b"", Content_Length="20000000")
        self.assertEqual(status, 413)
        self.assertEqual(self.page()[0], 200)

    def test_a_request_of_another_form(self):
        self.assertEqual(self.site.request("POST", "/work", b"{", )[0], 400)
        self.assertEqual(self.site.request("POST", "/work", b"[]")[0], 400)
        self.assertEqual(self.site.request("POST", "/work", b"[" * 100_000)[0], 400)
        self.assertEqual(self.site.request("POST", "/work", b"{}", Content_Type="text/plain")[0], 415)
        self.assertEqual(self.site.request("POST", "/work", b"{}", Content_Length="-2")[0], 411)
        self.assertEqual(self.site.request("POST", "/save", b'{"name": "x.json", "text": "\\ud800", "was": ""}')[0], 400)
        self.assertEqual(self.site.request("GET", f"http://[?token={self.site.token}")[0], 400)
        self.assertEqual(self.site.request("POST", "/elsewhere", b"{}")[0], 404)
        self.assertEqual(self.site.request("GET", f"/etc/passwd?token={self.site.token}")[0], 404)
        self.assertEqual(self.site.ask("/save", {"name": "x.json"})[0], 400)
        whole = {"task": "run", "file": "x.json", "texts": {"x.json": "{}"}}
        for more in ({"task": "no"}, {"task": None}, {"file": 1}, {"file": "y.json"}, {"texts": {}}, {"texts": 2}, {"texts": {"x.json": 1}}):
            status, made = self.site.ask("/work", {**whole, **more})
            self.assertEqual((status, list(made)), (400, ["refused"]), more)
        for more in ({"task": "place"}, {"task": "place", "part": 0, "fault": 3}, {"task": "schedule"}, {"task": "make"}, {"task": "make", "makes": []}):
            status, made = self.site.ask("/work", {**whole, **more})
            self.assertEqual((status, list(made)), (200, ["refused"]), more)

    def test_a_run_of_another_path(self):
        """The name of a scenario may be neither an option of the command line nor a path outside the folder."""
        journal = os.path.join(os.path.dirname(self.site.folder), "journal.json")
        text = self.site.text("write-cut.json")
        for name in (f"--journal={journal}", "-o", "../write-cut.json", "/tmp/x.json"):
            for more in ({"task": "map", "part": 0, "burst": 5, "kind": "trap"}, {"task": "run"}):
                status, made = self.site.ask("/work", {"file": name, "texts": {name: text}, **more})
                self.assertEqual((status, list(made)), (403, ["refused"]), name)
            status, made = self.site.ask("/work", {"task": "run", "file": "w.json", "texts": {"w.json": text, name: ""}})
            self.assertEqual((status, list(made)), (403, ["refused"]), name)
        self.assertFalse(os.path.exists(journal))

    def test_a_scenario_of_too_many_bytes(self):
        """It is refused with the message of the command line."""
        text = json.dumps({**example("write-cut.json"), "threads": [{"name": "t" * 1_100_000, "ops": []}]})
        refused = self.site.work("run", "large.json", texts={"large.json": text})["refused"]
        self.assertRegex(refused["text"], r"^large\.json:1:1: the scenario has 1,1\d\d,\d{3} bytes as the program reads it; it reads at most 1,048,576$")

    def test_the_tasks_are_known(self):
        self.assertEqual(sorted(serve_requests.TASKS), sorted(serve_work.TASKS))

    def test_headers(self):
        ended = socket.create_connection(("127.0.0.1", self.site.server.server_port))
        ended.sendall(f"GET /?token={self.site.token} HTTP/1.1\r\nHost: {self.site.host}\r\n\r\n".encode())
        response = b""
        while b"\r\n\r\n" not in response:
            response += ended.recv(4096)
        ended.close()
        head = response.split(b"\r\n\r\n")[0].decode().lower()
        for line in ("cache-control: no-store", "referrer-policy: no-referrer", "x-frame-options: deny", "x-content-type-options: nosniff"):
            self.assertIn(line, head)
        self.assertRegex(head, r"content-security-policy: default-src 'none'; .*connect-src 'self'; .*frame-ancestors 'none'")

    def test_it_listens_on_this_machine_alone(self):
        self.assertEqual(self.site.server.server_address[0], "127.0.0.1")
        with self.assertRaises(OSError):
            socket.create_connection(("127.0.0.2", self.site.server.server_port), timeout=5)


class Ends(unittest.TestCase):
    def long(self, served: Site) -> dict:
        return {"task": "run", "file": "long.json", "texts": {"long.json": json.dumps(many_events())}}

    def test_a_scenario_that_runs_for_long(self):
        with site(seconds=0.5) as served:
            begun = time.monotonic()
            status, made = served.ask("/work", self.long(served))
            self.assertEqual((status, list(made)), (200, ["ended"]))
            self.assertIn("longer than 0.5 s, and was ended", made["ended"]["text"])
            self.assertLess(time.monotonic() - begun, 15)
            self.assertEqual(served.server.served.runs.processes, set())

    def test_a_repetition_of_repetitions(self):
        text = '{"version": 1, "parts": ' + '[{"repeat": 60000, "of": ' * 3 + "1" + "}]" * 3 + "}"
        with site(seconds=5) as served:
            made = served.work("run", "large.json", texts={"large.json": text})
            self.assertIn(list(made), [["ended"], ["refused"]])

    def test_a_page_that_goes_away(self):
        """The run of the page is ended, together with the program."""
        with site() as served:
            body = json.dumps(self.long(served)).encode()
            head = f"POST /work HTTP/1.1\r\nHost: {served.host}\r\nX-Nooks-Token: {served.token}\r\n"
            head += f"Content-Type: application/json\r\nContent-Length: {len(body)}\r\n\r\n"
            page = socket.create_connection(("127.0.0.1", served.server.server_port))
            page.sendall(head.encode() + body)
            runs = served.server.served.runs
            ends(self, lambda: runs.processes)
            number = next(iter(runs.processes)).pid
            ends(self, lambda: len(group(number)) > 1)
            page.close()
            ends(self, lambda: not runs.processes)
            ends(self, lambda: not group(number))

    def test_a_server_that_is_killed(self):
        """The runs of a killed server end by themselves."""
        with tempfile.TemporaryDirectory() as folder:
            words = [sys.executable, "-B", os.path.join(os.path.dirname(HERE), "nooks-bench"), "serve", folder]
            server = subprocess.Popen(words, stdout=subprocess.PIPE, stderr=subprocess.DEVNULL, text=True)
            address = server.stdout.readline().strip()
            port, token = int(address.split(":")[2].split("/")[0]), address.split("token=")[1]
            body = json.dumps({"task": "run", "file": "long.json", "texts": {"long.json": json.dumps(many_events())}}).encode()
            page = socket.create_connection(("127.0.0.1", port))
            head = f"POST /work HTTP/1.1\r\nHost: 127.0.0.1:{port}\r\nX-Nooks-Token: {token}\r\nContent-Type: application/json\r\n"
            page.sendall(f"{head}Content-Length: {len(body)}\r\n\r\n".encode() + body)
            children = f"/proc/{server.pid}/task"

            def below() -> list[str]:
                found = []
                for each in os.listdir(children):
                    with open(f"{children}/{each}/children", encoding="utf-8") as file:
                        found += file.read().split()
                return found

            ends(self, below)
            number = int(below()[0])
            ends(self, lambda: len(group(number)) > 1)
            server.send_signal(signal.SIGKILL)
            server.wait()
            server.stdout.close()
            ends(self, lambda: not group(number), 10)
            page.close()

    def test_interrupted(self):
        with tempfile.TemporaryDirectory() as folder:
            words = [sys.executable, "-B", os.path.join(os.path.dirname(HERE), "nooks-bench"), "serve", folder]
            for way in (signal.SIGINT, signal.SIGTERM):
                server = subprocess.Popen(words, stdout=subprocess.PIPE, stderr=subprocess.PIPE, text=True)
                self.assertRegex(server.stdout.readline(), r"^http://127\.0\.0\.1:\d+/\?token=[\w-]{32}\n$")
                server.send_signal(way)
                self.assertIn("ended", server.communicate(timeout=20)[1])
                self.assertEqual(server.returncode, 0)

    def test_options(self):
        for words in (["--port", "70000"], ["--seconds", "0"], ["/no/such/folder"]):
            self.assertEqual(bench("serve", *words)[0], 2)


class Makes(unittest.TestCase):
    """The page makes the same as the command line from the same files."""

    def test_opening_gives_each_driver_a_text(self):
        with site("write-cut.json") as served:
            made = served.work("open", "write-cut.json")["made"]
            self.assertEqual((made["file"], list(made["texts"])), ("write-cut.jsonc", ["write-cut.jsonc", "write-cut.asm"]))
            self.assertEqual([each["saved"] for each in made["texts"].values()], [False, False])
            for name, each in made["texts"].items():
                self.assertEqual(served.ask("/save", {"name": name, "text": each["text"], "was": each["was"]})[0], 200)
            status, out, err = bench("build", served.path("write-cut.jsonc"))
            self.assertEqual((status, json.loads(out)), (0, example("write-cut.json")), err)
            again = served.work("open", "write-cut.jsonc")["made"]
            self.assertEqual([each["saved"] for each in again["texts"].values()], [True, True])

    def test_opening_leaves_files_that_are_there(self):
        with site("write-cut.json") as served:
            served.put("write-cut.asm", "; another driver\n")
            served.put("write-cut.jsonc", "{}")
            made = served.work("open", "write-cut.json")["made"]
            self.assertEqual(list(made["texts"]), ["write-cut-2.jsonc", "write-cut-2.asm"])
            self.assertEqual([each["was"] for each in made["texts"].values()], ["", ""])

    def test_a_text_that_is_no_scenario_is_opened_to_be_fixed(self):
        with site() as served:
            for text in ("{", "[]", '{"version": 1, "parts": 3}', ""):
                served.put("bad.json", text)
                made = served.work("open", "bad.json")["made"]
                self.assertEqual({name: (each["text"], each["saved"]) for name, each in made["texts"].items()}, {"bad.json": (text, True)})

    def test_a_driver_that_is_not_there_is_opened_empty(self):
        with site() as served:
            text = json.dumps({"parts": [{"driver": {"asm_file": name}} for name in ("new.asm", "../../outside.asm")]})
            served.put("sub/s.json", text)
            made = served.work("open", "sub/s.json")["made"]
            self.assertEqual({name: (each["text"], each["saved"]) for name, each in made["texts"].items()},
                             {"sub/s.json": (text, True), "sub/new.asm": ("", False)})

    def test_a_file_keeps_its_rights(self):
        with site("block.asm") as served:
            os.chmod(served.path("block.asm"), 0o640)
            Folder(served.folder).write("block.asm", "other", None)
            self.assertEqual(os.stat(served.path("block.asm")).st_mode & 0o777, 0o640)

    def test_opening_takes_a_file_with_the_same_text(self):
        with site("write-cut.json") as served:
            served.put("write-cut.asm", example("write-cut.json")["parts"][0]["driver"]["asm"])
            made = served.work("open", "write-cut.json")["made"]
            self.assertEqual({name: each["saved"] for name, each in made["texts"].items()}, {"write-cut.jsonc": False, "write-cut.asm": True})

    def test_a_fault_gives_the_run_of_the_command_line(self):
        with site("write-cut.json") as served:
            text = served.work("place", "write-cut.json", part=0, fault=TRAP)["made"]["text"]
            self.assertEqual(json.loads(text), with_faults(example("write-cut.json"), 0, [TRAP]))
            shown = served.work("run", "write-cut.json", texts={"write-cut.json": text})["made"]["data"]
            with file_of(text) as path:
                _, page, _ = bench("page", path)
            alone = data_of(page)
            self.assertEqual(shown["parts"], alone["parts"])
            self.assertEqual(shown["status"], alone["status"])

    def test_a_guard(self):
        with site("sends-twice.json") as served:
            broken = served.work("run", "sends-twice.json")["made"]["data"]
            guarded = served.work("run", "sends-twice.json", guard=True)["made"]["data"]
            self.assertIn("status 7", broken["status"])
            self.assertIn("status 0", guarded["status"])
            self.assertEqual([each["broken"] > 0 for each in (broken["parts"][0], guarded["parts"][0])], [True, False])

    def test_a_refused_input_has_the_message_of_the_command_line(self):
        made = example("write-cut.json")
        del made["parts"][0]["driver"]
        made["parts"][0]["limit"] = 22
        texts = [json.dumps(made), json.dumps({**example("write-cut.json"), "threads": 3}), '{"version": 1,\n "parts": [}', "[]", '{"version": 1'
                 ]
        with site() as served:
            for text in texts:
                served.put("bad.json", text)
                refused = served.work("check", "bad.json")["refused"]
                status, _, err = bench("build", served.path("bad.json"))
                self.assertEqual(status, 2)
                self.assertEqual(err.replace(served.path("bad.json"), "bad.json"), f"nooks-bench: {refused['text']}\n")
                self.assertTrue(refused["text"].startswith(f"bad.json:{refused['line']}:{refused['column']}: "))

    def test_an_assembler_error_has_its_line(self):
        with site() as served:
            text = json.dumps({**example("write-cut.json"), "parts": [{"name": "d", "class": "block", "blocks": 16, "driver": {"asm_file": "d.asm"}}]})
            served.put("w.json", text)
            served.put("d.asm", "; nothing\n")
            lines = example_text("block.asm").split("\n")
            asm = "\n".join([*lines[:20], "  LI r1 x9, 3", *lines[20:]])
            refused = served.work("check", "w.json", texts={"w.json": text, "d.asm": asm})["refused"]
            self.assertEqual((refused["file"], refused["line"]), ("d.asm", 21))
            served.put("d.asm", asm)
            _, _, err = bench("build", served.path("w.json"))
            self.assertEqual(err.replace(f"{served.folder}/", ""), f"nooks-bench: {refused['text']}\n")

    def test_a_campaign_is_no_scenario(self):
        with site("campaign-block.json") as served:
            self.assertIn("campaign", served.work("run", "campaign-block.json")["refused"]["text"])

    def test_a_map_is_that_of_the_command_line(self):
        with site("write-cut.json") as served:
            options = {"part": 0, "burst": 5, "kind": "reg", "register": "8", "value": "2", "width": 900}
            made = served.work("map", "write-cut.json", guard=True, **options)["made"]
            words = [f"--{name}={value}" for name, value in options.items()]
            status, out, _ = bench("map", served.path("write-cut.json"), *words, "--guard", "--no-caption")
            self.assertEqual(status, 0)
            self.assertEqual(made["svg"].count("<rect"), out.count("<rect"))
            self.assertNotIn("style=", made["svg"])
            self.assertEqual(made["command"], "nooks-bench map write-cut.json " + " ".join(words) + " --guard")
            refused = served.work("map", "write-cut.json", part=0, burst=5, kind="reg", register="99", value="2")
            self.assertIn("allowed is a number from 0 to 15", refused["refused"]["text"])
            for more in ({"burst": "5 -o x.svg"}, {"kind": "no"}, {"part": "x"}, {"width": []}, {"kind": ["trap"]}):
                refused = served.work("map", "write-cut.json", **{"part": 0, "burst": 5, "kind": "trap", **more})
                self.assertEqual(list(refused), ["refused"], more)
            self.assertEqual(os.listdir(served.folder), ["write-cut.json"])

    def test_files(self):
        with site("contract-broken.json") as served:
            for makes, name, words in (("report", "c.report", ["run"]), ("exact", "c.json", []), ("page", "c.html", []), ("map", "c.svg", []),
                                       ("guarded", "g.json", [])):
                options = {"part": 0, "burst": 3, "kind": "trap"} if makes == "map" else {}
                made = served.work("make", "contract-broken.json", makes=makes, name=name, **options)
                self.assertEqual(made, {"made": {"name": name}})
            with open(example_path("contract-broken.report"), encoding="utf-8") as file:
                self.assertEqual(served.text("c.report"), file.read())
            self.assertEqual(json.loads(served.text("c.json")), example("contract-broken.json"))
            _, alone, _ = bench("page", served.path("contract-broken.json"))
            self.assertEqual(data_of(served.text("c.html"))["parts"], data_of(alone)["parts"])
            self.assertTrue(served.text("c.svg").startswith("<svg"))
            self.assertEqual(parse_report(program().report(json.loads(served.text("g.json")))).status, 1)
            again = served.work("make", "contract-broken.json", makes="report", name="c.report", guard=True)
            self.assertIn("is there already", again["refused"]["text"])
            served.work("make", "contract-broken.json", makes="report", name="c.report", guard=True, over=True)
            self.assertTrue(served.text("c.report").startswith("guard 0 "))
            status, made = served.ask("/work", {"task": "make", "makes": "report", "name": "../c.report", "file": "contract-broken.json",
                                                "texts": {"contract-broken.json": served.text("contract-broken.json")}})
            self.assertEqual((status, list(made)), (403, ["refused"]))

    def test_a_file_that_another_program_changed(self):
        with site("block.asm") as served:
            was = served.ask("/save", {"name": "n.asm", "text": "one", "was": ""})[1]["made"]["was"]
            self.assertIn("there already", served.ask("/save", {"name": "n.asm", "text": "two", "was": ""})[1]["refused"]["text"])
            served.put("n.asm", "by another")
            self.assertIn("another program", served.ask("/save", {"name": "n.asm", "text": "two", "was": was})[1]["refused"]["text"])
            self.assertEqual(served.text("n.asm"), "by another")

    def test_a_write_that_fails_leaves_the_file(self):
        with site("block.asm") as served:
            folder = Folder(served.folder)
            with self.assertRaises(UnicodeEncodeError):
                folder.write("block.asm", "\ud800", None)
            self.assertEqual(served.text("block.asm"), example_text("block.asm"))
            self.assertEqual(os.listdir(served.folder), ["block.asm"])
            with self.assertRaises(Outside):
                folder.write("no/block.asm", "", None)

    def test_no_other_file_is_left(self):
        with site("write-cut.json") as served:
            for task in ("run", "check"):
                served.work(task, "write-cut.json")
            served.work("map", "write-cut.json", part=0, burst=5, kind="trap")
            self.assertEqual(os.listdir(served.folder), ["write-cut.json"])
            self.assertEqual(os.listdir(os.path.dirname(served.folder)), ["folder"])


WRITING = re.compile(r"O_WRONLY|O_RDWR|O_CREAT|\b(?:creat|mkdir|mknod|link|symlink|rename|unlink|truncate)(?:at2?)?\(")
CALLS = "open,openat,creat,mkdir,mkdirat,mknod,mknodat,link,linkat,symlink,symlinkat,rename,renameat,renameat2,unlink,unlinkat,truncate"


@unittest.skipUnless(shutil.which("strace"), "there is no strace, which sees what is written: apt-get install strace")
class Writes(unittest.TestCase):
    def written(self, folder: str, log: str, asked: list[tuple[str, dict]]) -> list[str]:
        """The system calls by which a server and its children write files while it answers some requests."""
        words = ["strace", "-f", "-qq", "-y", "-e", "signal=none", "-e", f"trace={CALLS}", "-o", log]
        words += [sys.executable, "-B", os.path.join(os.path.dirname(HERE), "nooks-bench"), "serve", folder]
        tracer = subprocess.Popen(words, stdout=subprocess.PIPE, stderr=subprocess.DEVNULL, text=True)
        try:
            address, _, token = tracer.stdout.readline().strip().partition("?token=")
            headers = {"X-Nooks-Token": token, "Content-Type": "application/json"}
            for path, given in asked:
                with urllib.request.urlopen(urllib.request.Request(address + path, json.dumps(given).encode(), headers)) as answer:
                    self.assertEqual(list(json.load(answer)), ["made"], given)
        finally:
            with open(f"/proc/{tracer.pid}/task/{tracer.pid}/children", encoding="utf-8") as file:
                os.kill(int(file.read().split()[0]), signal.SIGTERM)
            tracer.communicate()
        with open(log, encoding="utf-8", errors="replace") as file:
            return [line for line in file if WRITING.search(line) and " = -1 E" not in line and "/dev/null" not in line]

    def test_nothing_is_written_outside_the_folder(self):
        with tempfile.TemporaryDirectory() as above:
            folder = os.path.join(os.path.realpath(above), "folder")
            os.mkdir(folder)
            base = {"file": "w.json", "texts": {"w.json": example_text("write-cut.json")}}
            asked = [("work", {**base, "task": task}) for task in ("check", "run")]
            asked += [("work", {**base, "task": "map", "part": 0, "burst": 5, "kind": "reg", "register": "1-2", "value": "2", "guard": True}),
                      ("work", {**base, "task": "make", "makes": "page", "name": "w.html"}), ("save", {"name": "w.json", "text": "{}", "was": ""})]
            written = self.written(folder, os.path.join(above, "log"), asked)
            opened = [line for line in written if "openat(" in line]
            self.assertEqual(len(opened), 2, opened)
            for line in written:
                self.assertIn(f"<{folder}>", line)
            self.assertEqual(sorted(os.listdir(folder)), ["w.html", "w.json"])


class Texts(unittest.TestCase):
    """A change of a text leaves the rest as it is."""

    FAULT = {"burst": 3, "after": 7, "kind": "trap"}

    def with_the_fault(self, text: str, part: int = 0) -> str:
        made = with_fault(text, "x.jsonc", part, self.FAULT)
        before, after = (Reader(each, "x.jsonc").whole().plain() for each in (text, made))
        self.assertEqual(after["parts"][part]["faults"], [*before["parts"][part].get("faults", []), self.FAULT])
        for scenario in (before, after):
            scenario["parts"][part].pop("faults", None)
        self.assertEqual(after, before)
        return made

    def test_faults(self):
        written = json.dumps(self.FAULT)
        self.assertEqual(self.with_the_fault('{"parts": [{"limit": 1}]}'), '{"parts": [{"limit": 1, "faults": [' + written + "]}]}")
        self.assertEqual(self.with_the_fault('{"parts": [{"x": 1}]}'), '{"parts": [{"faults": [' + written + '], "x": 1}]}')
        self.assertEqual(self.with_the_fault('{"parts": [{}]}'), '{"parts": [{"faults": [' + written + "]}]}")
        self.assertEqual(self.with_the_fault('{"parts": [{"faults": [ ]}]}'), '{"parts": [{"faults": [' + written + " ]}]}")
        self.assertEqual(self.with_the_fault('{"parts": [{"faults": [1, // one\n]}]}'), '{"parts": [{"faults": [1, ' + written + ", // one\n]}]}")
        text = '{\n  "parts": [\n    {},\n    {\n      "limit": 1, // why\n      "faults": [\n        1, // a\n        2, // b\n      ],\n    },\n  ],\n}'
        self.assertEqual(self.with_the_fault(text, 1), text.replace("2, // b", f"2,\n        {written}, // b"))
        text = '{"parts": [\n  {\n    "name": "a", // the name\n    "limit": 1\n  }\n]}'
        self.assertEqual(self.with_the_fault(text), text.replace('"limit": 1', f'"limit": 1,\n    "faults": [{written}]'))

    def test_parts_that_are_not_written_out(self):
        for text in ('{"parts": [{"repeat": 2, "of": {}}]}', '{"parts": []}', '{"parts": 1}', "{}", "[]", '{"parts": [{"faults": 1}]}'):
            with self.assertRaises(Mistake):
                with_fault(text, "x.json", 0, self.FAULT)

    def test_schedules(self):
        listed = {"kind": "listed", "picks": [0, 1]}
        for text, made in (
            ('{"version": 1, "x": 2}', '{"version": 1, "schedule": {"kind": "listed", "picks": [0, 1]}, "x": 2}'),
            ('{"schedule": {"kind": "drawn", "start": 1}, // so\n}', '{"schedule": {"kind": "listed", "picks": [0, 1]}, // so\n}'),
        ):
            self.assertEqual(with_schedule_text(text, "x.json", listed), made)

    def test_drivers(self):
        text = '{"drivers": {"d": {"asm": "one"}}, // table\n "parts": [{"driver": "d"}, {"driver": {"asm": "two\\n"}}, {"driver": {"image": {}}}]}'
        made, files = with_files(text, "x.json", lambda asm: f"sub/{asm.strip()}.asm")
        self.assertEqual(files, {"sub/one.asm": "one", "sub/two.asm": "two\n"})
        self.assertEqual(made, text.replace('"asm": "one"', '"asm_file": "one.asm"').replace('"asm": "two\\n"', '"asm_file": "two.asm"'))

    def test_every_example(self):
        for name in sorted(os.listdir(os.path.dirname(example_path("x")))):
            if name.endswith(".json") and not name.startswith("campaign"):
                made = serve_work.opened(Folder(os.path.dirname(example_path(name))), name)
                texts = {each: value["text"] for each, value in made["texts"].items()}
                self.assertEqual(built(made["file"], texts[made["file"]], texts.__getitem__).plain(), example(name), name)


class Orders(unittest.TestCase):
    def test_a_program_without_it(self):
        """A program without `explore` prints its usage."""
        with tempfile.TemporaryDirectory() as folder, site("block.json") as served:
            path = os.path.join(folder, "nooks")
            with open(path, "w", encoding="utf-8") as file:
                file.write(f'#!/bin/sh\n[ "$1" = explore ] && {{ echo "usage: nooks run | asm"; exit 2; }}\nexec {program().path} "$@"\n')
            os.chmod(path, 0o755)
            served.server.served.runs.about["program"] = path
            refused = served.work("explore", "block.json")["refused"]["text"]
            self.assertEqual(refused, f"{path} is too old: it has no `explore`; the program that ./nooks-plain builds has it")

    def test_a_race(self):
        """Some orders of the racing driver break its contract; each outcome has a schedule that leads to it."""
        with site() as served:
            served.put("race.json", json.dumps(racing_scenario()))
            made = served.work("explore", "race.json")["made"]
            self.assertTrue(made["whole"])
            self.assertEqual({row["status"] for row in made["rows"]}, {0, 7})
            for row in made["rows"]:
                text = served.work("schedule", "race.json", schedule=row["schedule"])["made"]["text"]
                shown = served.work("run", "race.json", texts={"race.json": text})["made"]["data"]
                self.assertTrue(shown["status"].startswith(f"status {row['status']}:"))
                if row["status"] == 7:
                    self.assertRegex(row["about"][0], r"^link at event \d+, clause 5: sent ")


if __name__ == "__main__":
    unittest.main()
