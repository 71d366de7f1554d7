"""What timelines and maps have in common as pictures: their size, their caption and their output file."""

from __future__ import annotations

import argparse
import hashlib
import importlib
import json
import os
import shlex
import shutil
import subprocess
import sys
import tempfile
from typing import Any

from . import __version__
from .output import Output, Unwritten
from .program import Mistake, Program
from .svg import EDGE, GREY, Canvas

# The size of most letters in a drawing that is not scaled.
LETTERS = 11
FORMATS = ("svg", "pdf", "png")
CHROMIUMS = ("chromium", "chromium-browser", "google-chrome")

# Options that do not change the picture, and how many words each takes; the caption omits them.
SILENT = {"--quiet": 1, "--pdf": 1, "--jobs": 2, "--program": 2, "-o": 2, "--output": 2}


def add_picture_options(parser: argparse.ArgumentParser, width_help: str, wrap_help: str) -> None:
    group = parser.add_argument_group("picture")
    group.add_argument("--width", type=int, metavar="N", help=width_help)
    group.add_argument("--wrap", type=int, metavar="N", help=wrap_help)
    group.add_argument("--font-size", type=float, default=LETTERS, metavar="S",
                       help=f"the size of the letters in pixels; the drawing grows with them (default {LETTERS})")
    group.add_argument("-o", "--output", metavar="FILE", help="write to FILE; its ending is .svg, .pdf or .png")
    group.add_argument("--no-caption", action="store_true", help="without the lines that say how it was made")
    group.add_argument("--pdf", action="store_true", help="PDF, by rsvg-convert, cairosvg or chromium")


def check_picture_options(args: argparse.Namespace) -> None:
    """Refuses sizes for which no picture can be made."""
    if args.width is not None and not 1 <= args.width <= 100_000:
        raise Mistake("--width takes a number from 1 to 100000")
    if args.wrap is not None and args.wrap < 1:
        raise Mistake("--wrap takes a number from 1 on")
    if not 4 <= args.font_size <= 100:
        raise Mistake("--font-size takes a number from 4 to 100")
    format_of(args)


def scale_of(args: argparse.Namespace) -> float:
    return float(args.font_size) / LETTERS


def room_of(args: argparse.Namespace, default: int) -> float:
    """Returns the width in the units of the drawing, before it is scaled."""
    return float(args.width or default) / scale_of(args)


def caption_lines(args: argparse.Namespace, program: Program | None, subject: str) -> list[str]:
    """Returns the caption of a picture: the command, the versions, and what the picture shows."""
    if args.no_caption:
        return []
    return [command_text(args), f"{version_of(program)}; {subject}"]


def command_text(args: argparse.Namespace) -> str:
    """Returns the command that made the picture, without the options that do not change it."""
    words = list(getattr(args, "words", None) or [])
    shown: list[str] = []
    while words:
        name = words[0].split("=")[0]
        if name in SILENT:
            words = words[1 if "=" in words[0] else SILENT[name] :]
        else:
            shown.append(words.pop(0))
    return shlex.join(["nooks-bench", *shown])


def hash_of(value: Any) -> str:
    """Returns the first digits of the SHA-256 of a text, or of a value as JSON with sorted keys."""
    text = value if isinstance(value, str) else json.dumps(value, sort_keys=True, separators=(",", ":"))
    return hashlib.sha256(text.encode()).hexdigest()[:12]


def version_of(program: Program | None) -> str:
    """Returns the versions of the workbench and, if there is one, of the program."""
    version = program.version() if program else None
    return f"nooks-bench {__version__}" + (f", {version}" if version else "")


def caption(canvas: Canvas, lines: list[str], width: float) -> None:
    """Draws small lines below a drawing: how it was made, and what it shows. They are wrapped, so that the drawing with
    its edges has the given width at most, unless it is wider already."""
    y = canvas.height + 20
    room = max(width - EDGE, canvas.width) - EDGE
    for line in lines:
        y += canvas.lines(EDGE, y, line, room, 8.5, GREY)


def format_of(args: argparse.Namespace) -> str:
    """Returns the format that the options select."""
    if not args.output:
        return "pdf" if args.pdf else "svg"
    ending = os.path.splitext(str(args.output))[1][1:].lower()
    if args.pdf and ending != "pdf":
        raise Mistake(f"--pdf and {args.output}: the file's ending is not .pdf")
    if ending not in FORMATS:
        raise Mistake(f"{args.output}: the ending is none of .svg, .pdf and .png")
    return ending


def put_picture(svg: str, args: argparse.Namespace) -> None:
    """Writes a drawing to standard output, or to the file that the options name."""
    kind = format_of(args)
    made = svg.encode() if kind == "svg" else converted(svg, kind)
    if args.output:
        try:
            with open(args.output, "wb") as file:
                file.write(made)
        except OSError as error:
            raise Mistake(f"{args.output}: {error.strerror}") from error
    elif kind == "svg":
        sys.stdout.write(svg)
    else:
        write_bytes(made)


def write_bytes(made: bytes) -> None:
    out: object = sys.stdout
    stream = out.stream if isinstance(out, Output) else sys.stdout
    try:
        stream.flush()
        stream.buffer.write(made)
        stream.buffer.flush()
    except OSError as error:
        raise Unwritten(error.strerror) from error


def converted(svg: str, kind: str) -> bytes:
    """Converts the drawing to another format, by a converter installed on this machine."""
    if found := shutil.which("rsvg-convert"):
        return output_of([found, "--format", kind], svg.encode())
    if library := cairosvg():
        made = library.svg2pdf if kind == "pdf" else library.svg2png
        return bytes(made(bytestring=svg.encode()))
    chromium = next((path for path in [shutil.which(name) for name in CHROMIUMS] if path), None)
    if chromium and kind == "pdf":
        return printed(chromium, svg)
    others = ", chromium" if kind == "pdf" else ""
    converters = f"librsvg2-bin (rsvg-convert){others} or the Python package cairosvg"
    raise Mistake(f"nothing here makes a {kind.upper()} of an SVG: install {converters}")


def cairosvg() -> Any:
    """Returns the Python package of that name, None if it is not installed."""
    try:
        return importlib.import_module("cairosvg")
    except ImportError:
        return None


def output_of(words: list[str], given: bytes) -> bytes:
    """Returns what a converter writes to standard output."""
    try:
        ended = subprocess.run(words, input=given, capture_output=True, check=False)
    except OSError as error:
        raise Mistake(f"{words[0]} cannot be run: {error.strerror}") from error
    if ended.returncode:
        said = ended.stderr.decode(errors="replace").strip().split("\n")[-1]
        raise Mistake(f"{words[0]} ended with status {ended.returncode}: {said}")
    return ended.stdout


def printed(chromium: str, svg: str) -> bytes:
    """Prints the drawing as a PDF of one page of its size, by a browser without a window."""
    with tempfile.TemporaryDirectory() as folder:
        page, made = (os.path.join(folder, name) for name in ("page.html", "made.pdf"))
        sides = [part.split('"')[1] for part in svg.split(">")[0].split(" ") if part.startswith(("width=", "height="))]
        style = f"@page {{ size: {sides[0]}px {sides[1]}px; margin: 0 }} body {{ margin: 0 }} svg {{ display: block }}"
        with open(page, "w", encoding="utf-8") as file:
            file.write(f"<!doctype html><meta charset='utf-8'><style>{style}</style>{svg}")
        options = ["--headless", "--no-sandbox", "--disable-gpu", "--no-pdf-header-footer"]
        output_of([chromium, *options, f"--print-to-pdf={made}", f"file://{page}"], b"")
        try:
            with open(made, "rb") as pdf:
                return pdf.read()
        except OSError as error:
            raise Mistake(f"{chromium} made no PDF: {error.strerror}") from error
