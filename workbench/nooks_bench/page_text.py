"""The page as one text that contains its style, its script and its data, and makes no requests.

The script is several modules that import each other. They are joined into one module, without their imports and
exports, so that no server is needed to load them."""

from __future__ import annotations

import base64
import hashlib
import json
import os
import re
from html import escape
from typing import Any

from .svg import BLACK, BLUE, GREEN, GREY, ORANGE, PALE, PURPLE, RED, SKY, WHITE, YELLOW

FOLDER = os.path.join(os.path.dirname(os.path.abspath(__file__)), "page_files")

# The modules of the script, each after those that it imports: those of every page, the one that starts a page of one
# run, and those of the page that a server sends.
SHARED = ("history.js", "elements.js", "events.js", "lanes.js", "state.js", "burst.js", "page.js")
MODULES = (*SHARED, "start.js")
SERVED_MODULES = (*SHARED, "ask.js", "editor.js", "fault.js", "map.js", "orders.js", "serve.js")

IMPORT = re.compile(r'^import [^;]*;\n', re.MULTILINE)
EXPORT = re.compile(r"^export (?=const |function |class )", re.MULTILINE)

COLOURS = {"black": BLACK, "blue": BLUE, "green": GREEN, "grey": GREY, "orange": ORANGE, "pale": PALE,
           "purple": PURPLE, "red": RED, "sky": SKY, "white": WHITE, "yellow": YELLOW}


def file_text(name: str) -> str:
    with open(os.path.join(FOLDER, name), encoding="utf-8") as file:
        return file.read()


def script_text(modules: tuple[str, ...] = MODULES) -> str:
    """Joins some modules into one."""
    pieces = [EXPORT.sub("", IMPORT.sub("", file_text(name))).strip() for name in modules]
    return "\n\n".join(pieces) + "\n"


def style_text(*files: str) -> str:
    """Returns the style, with the colours that timelines and maps use too."""
    colours = " ".join(f"--{name}: {value};" for name, value in COLOURS.items())
    return f":root {{ {colours} }}\n" + "\n".join(file_text(name) for name in ("page.css", *files))


def data_text(data: Any) -> str:
    """Returns JSON that is safe inside an element of a page: it neither ends the element nor begins a comment."""
    return json.dumps(data, ensure_ascii=False, separators=(",", ":")).replace("<", "\\u003c")


def digest(text: str) -> str:
    """Returns the hash by which a policy permits a script or a style."""
    return "'sha256-" + base64.b64encode(hashlib.sha256(text.encode()).digest()).decode() + "'"


def policy_of(script: str, style: str, *more: str) -> str:
    """Returns a policy that permits no other script, and no requests but those that `more` permits."""
    rules = ["default-src 'none'", f"script-src {digest(script)}", f"style-src {digest(style)}", "img-src data:", *more]
    return "; ".join(rules)


def html_text(title: str, policy: str, script: str, style: str, data: Any) -> str:
    return "\n".join([
        "<!doctype html>",
        '<html lang="en">',
        "<head>",
        '<meta charset="utf-8">',
        f'<meta http-equiv="Content-Security-Policy" content="{escape(policy, quote=False)}">',
        '<meta name="viewport" content="width=device-width, initial-scale=1">',
        '<link rel="icon" href="data:,">',
        f"<title>{escape(title)}</title>",
        f"<style>{style}</style>",
        "</head>",
        "<body>",
        "<noscript>This page shows a run by a script that it contains. Let it run scripts.</noscript>",
        f'<script type="application/json" id="data">{data_text(data)}</script>',
        f'<script type="module">{script}</script>',
        "</body>",
        "</html>",
        "",
    ])


def page_text(data: dict[str, Any]) -> str:
    """Returns the page of a run. It makes no requests."""
    script, style = f"\n{script_text()}", f"\n{style_text()}"
    return html_text(data["title"], policy_of(script, style), script, style, data)


def served_page(about: dict[str, Any]) -> tuple[str, str]:
    """Returns the page that a server sends, which makes requests to this server only; and the policy for the response's
    header, which can say more than the one in the page."""
    script, style = f"\n{script_text(SERVED_MODULES)}", f"\n{style_text('serve.css')}"
    policy = policy_of(script, style, "connect-src 'self'", "base-uri 'none'", "form-action 'none'")
    return html_text("nooks-bench serve", policy, script, style, about), f"{policy}; frame-ancestors 'none'"
