"""serve: the page from a local server, on which scenarios and drivers are edited and run."""

from __future__ import annotations

import argparse
import secrets
import signal
import sys
from types import FrameType

from .facts import FAULT_KINDS
from .messages import say
from .page_text import served_page
from .program import Mistake, find_program
from .serve_folder import Folder
from .serve_requests import Served, Server
from .serve_runs import Runs

ABOUT = """Serves the page of `page` on this machine, with editing: the scenario as `build` takes it, the driver's
text, a fault added by a click on an instruction or on a cell of a map, the run with a guard, and the outcomes of all
orders. It prints the address to open, whose token nobody else knows. It listens on 127.0.0.1 alone, reads and writes
files of FOLDER alone, and ends a run that takes too long or whose page was closed. Ctrl-C ends it. It needs only
Python."""

DEFAULT_SECONDS = 30.0


def serve(args: argparse.Namespace) -> Server:
    """Returns the server that the options ask for, which listens already."""
    if not 0 <= args.port <= 65_535:
        raise Mistake("--port takes a number from 0 to 65535")
    if not 0 < args.seconds <= 86_400:
        raise Mistake("--seconds takes a number above 0, at most 86400")
    program = find_program(args.program)
    program.version()
    folder = Folder(args.folder)
    token = secrets.token_urlsafe(24)
    kinds = {kind: {key: allowed.ends for key, allowed in keys.items()} for kind, keys in FAULT_KINDS.items()}
    page, policy = served_page({"token": token, "folder": folder.path, "seconds": args.seconds, "kinds": kinds})
    served = Served(folder, Runs(program.path, folder.path, args.seconds), token, page, policy)
    try:
        return Server(args.port, served)
    except OSError as error:
        raise Mistake(f"port {args.port} of 127.0.0.1: {error.strerror}") from error


def interrupt(number: int, frame: FrameType | None) -> None:
    raise KeyboardInterrupt


def run(args: argparse.Namespace) -> int:
    server = serve(args)
    signal.signal(signal.SIGTERM, interrupt)
    try:
        say(f"serves {server.served.folder.path}; open this address in a browser; Ctrl-C ends it")
        sys.stdout.write(f"{server.first_address}\n")
        sys.stdout.flush()
        server.serve_forever(poll_interval=0.2)
    except KeyboardInterrupt:
        say("ended")
    finally:
        server.served.runs.end_all()
        server.server_close()
    return 0


def add_to(commands: argparse._SubParsersAction[argparse.ArgumentParser]) -> None:
    about = "the page from a local server, with editing"
    parser = commands.add_parser("serve", help=about, description=ABOUT)
    about = "the folder of the files (default: this one)"
    parser.add_argument("folder", metavar="FOLDER", nargs="?", default=".", help=about)
    parser.add_argument("--port", type=int, default=0, metavar="N", help="listen on port N (default: one that is free)")
    parser.add_argument("--seconds", type=float, default=DEFAULT_SECONDS, metavar="S",
                        help=f"end a run after S seconds (default {DEFAULT_SECONDS:g})")
    parser.set_defaults(run=run)
