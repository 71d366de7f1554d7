"""The man pages, in the macros of man(7)."""

from __future__ import annotations

from described import Command, Option, asked, bench, bench_version, forms, version


def escaped(text: str) -> str:
    """A line of text, escaped so that troff shows it unchanged."""
    plain = text.replace("\\", "\\e").replace("-", "\\-").replace("'", "\\(aq").replace("`", "\\(ga")
    return "\\&" + plain if plain.startswith(".") else plain


def marked(text: str) -> str:
    """A subcommand or an operand: literal words in bold, placeholders in italics."""
    words = text.split(" ")
    return " ".join(
        f"\\fI{escaped(word)}\\fR" if word.strip("[].").isupper() else f"\\fB{escaped(word)}\\fR" for word in words
    )


def head(name: str, about: str, of: str) -> list[str]:
    return [f'.TH {name.upper()} 1 "" "{of}" "User Commands"', ".SH NAME", f"{escaped(name)} \\- {escaped(about)}"]


def items(pairs: list[tuple[str, str]]) -> list[str]:
    """A list of names, which have their markup already, with descriptions."""
    return [line for name, about in pairs for line in (".TP", name, escaped(about))]


def option_text(option: Option) -> str:
    """An option's names with the name of its value."""
    names = ", ".join(f"\\fB{escaped(name)}\\fR" for name in option.names)
    return f"{names} \\fI{escaped(option.value)}\\fR" if option.value else names


def option_about(option: Option) -> str:
    """The description of an option, with the values that it may take."""
    unlisted = [each for each in option.choices if each not in option.about]
    return option.about + (f" ({', '.join(option.choices)})" if unlisted else "")


def nooks_page(program: str, docs: str) -> str:
    """nooks(1), from the --help and the --version of the program."""
    words, statuses = forms(program)
    version_text = asked(program, "--version").strip()
    about = "simulator of driver domains with shadow driver recovery"
    lines = head("nooks", about, f"nooks {version(program)}")
    lines += [".SH SYNOPSIS"]
    for form in words:
        is_reading = not form.words.startswith(("--", "gen"))
        lines += [f"\\fBnooks\\fR {marked(form.words)}" + (" < \\fIINPUT\\fR" if is_reading else ""), ".br"]
    lines += [
        ".SH DESCRIPTION",
        escaped(
            "Runs device drivers in their own protection domains, lets faults strike them, and restarts them "
            "unseen by the applications that use them, as Nooks with shadow drivers does. The input is read from "
            "standard input, and the report is written to standard output."
        ),
        ".SH SUBCOMMANDS",
        *items([(marked(form.words), form.about) for form in words]),
        ".SH EXIT STATUS",
        *items([(marked(form.words), form.about) for form in statuses]),
        ".SH EXAMPLES",
        ".TP",
        f"\\fBnooks run < {escaped(docs)}/examples/write\\-and\\-read.json\\fR",
        escaped("writes the report of a scenario that is installed with the program."),
        ".SH VERSION",
        escaped(version_text),
        ".SH SEE ALSO",
        f"\\fBnooks\\-bench\\fR(1), the pages in {escaped(docs)}",
    ]
    return "\n".join(lines) + "\n"


def subcommand(command: Command) -> list[str]:
    """The section of a subcommand."""
    lines = [
        f".SS {escaped(command.name)}",
        f"\\fB{escaped(command.usage)}\\fR",
        ".PP",
        escaped(command.description or command.about),
    ]
    operands = [
        (f"\\fI{escaped(each.value)}\\fR", option_about(each)) for each in command.operands if option_about(each)
    ]
    options = [(option_text(each), option_about(each)) for each in command.options if "--help" not in each.names]
    return [*lines, *items(operands), *items(options)]


def bench_page(docs: str) -> str:
    """nooks-bench(1), from its parser."""
    whole, inner = bench()
    lines = head(
        "nooks-bench", "build scenarios for nooks, sweep faults, draw and explain reports", f"nooks {bench_version()}"
    )
    lines += [".SH SYNOPSIS", f"\\fB{escaped(whole.usage)}\\fR", ".SH DESCRIPTION", escaped(whole.description)]
    lines += [".SH OPTIONS", *items([(option_text(each), option_about(each)) for each in whole.options])]
    lines += [".SH SUBCOMMANDS", *items([(f"\\fB{escaped(each.name)}\\fR", each.about) for each in inner])]
    for each in inner:
        lines += subcommand(each)
    lines += [
        ".SH ENVIRONMENT",
        *items([("\\fBNOOKS\\fR", "the path of the program nooks, unless --program names it")]),
    ]
    if whole.epilog:
        lines += [".SH EXIT STATUS", escaped(whole.epilog.removeprefix("exit status: "))]
    lines += [".SH SEE ALSO", f"\\fBnooks\\fR(1), the pages in {escaped(docs)}"]
    return "\n".join(lines) + "\n"
