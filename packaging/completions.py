"""Completions for bash and zsh."""

from __future__ import annotations

from described import Command, Form, Option, bench, forms


def next_words(words: list[Form]) -> dict[str, list[str]]:
    """The words that may follow each prefix of a subcommand's words. `*` represents a number."""
    after: dict[str, list[str]] = {}
    for form in words:
        parts = ["*" if part.isupper() else part for part in form.words.split(" ")]
        for index, part in enumerate(parts):
            known = after.setdefault(" ".join(parts[:index]), [])
            if part != "*" and part not in known:
                known.append(part)
    return {prefix: known for prefix, known in after.items() if known}


def pattern(prefix: str) -> str:
    """A shell pattern for a prefix: the number of its words, and the words."""
    words = prefix.split()
    pieces = " ".join([str(len(words)), *words]).split("*")
    return "*".join(f'"{piece}"' if piece else "" for piece in pieces)


def cases(table: dict[str, list[str]], pad: str) -> list[str]:
    """Branches of a shell `case` that set `words` to the words that may come next."""
    return [f'{pad}{pattern(prefix)}) words="{" ".join(known)}" ;;' for prefix, known in table.items()]


def bash_nooks(program: str) -> str:
    """Completion of nooks for bash: subcommands with their arguments, then files."""
    words, _ = forms(program)
    return "\n".join(
        [
            "# bash completion for nooks",
            "_nooks() {",
            '    local words=""',
            '    local prefix=("${COMP_WORDS[@]:1:COMP_CWORD-1}")',
            '    case "${#prefix[@]}${prefix[*]:+ ${prefix[*]}}" in',
            *cases(next_words(words), "        "),
            "    esac",
            '    COMPREPLY=($(compgen -W "$words" -- "${COMP_WORDS[COMP_CWORD]}"))',
            "}",
            "complete -o default -F _nooks nooks",
            "",
        ]
    )


def zsh_nooks(program: str) -> str:
    """Completion of nooks for zsh."""
    words, _ = forms(program)
    return "\n".join(
        [
            "#compdef nooks",
            'local -a prefix=("${(@)words[2,CURRENT-1]}")',
            'local next=""',
            'case "${#prefix}${prefix:+ ${(j: :)prefix}}" in',
            *[line.replace("words=", "next=") for line in cases(next_words(words), "    ")],
            "esac",
            'if [[ -n "$next" ]]; then compadd -- ${=next}; else _files; fi',
            "",
        ]
    )


def valued(options: tuple[Option, ...]) -> list[str]:
    """The names of the options that take a value."""
    return [name for option in options if option.value for name in option.names]


def bash_values(options: tuple[Option, ...], pad: str) -> list[str]:
    """Branches of a `case` on the previous word: the values that an option may take."""
    lines = []
    for option in options:
        if option.value and not option.is_file:
            known = " ".join(option.choices)
            lines.append(f'{pad}{"|".join(option.names)}) COMPREPLY=($(compgen -W "{known}" -- "$now")); return ;;')
        elif option.is_file:
            lines.append(f'{pad}{"|".join(option.names)}) COMPREPLY=(); return ;;')
    return lines


def bash_subcommand(command: Command) -> list[str]:
    """The branch for a subcommand: its options and their values."""
    names = " ".join(name for option in command.options for name in option.names)
    return [
        f"        {command.name})",
        '            case "$before" in',
        *bash_values(command.options, "                "),
        "            esac",
        f'            words="{names}" ;;',
    ]


def bash_bench() -> str:
    """Completion of nooks-bench for bash: subcommands, their options and the values of these; otherwise files."""
    whole, inner = bench()
    names = " ".join(each.name for each in inner)
    options = " ".join(name for option in whole.options for name in option.names)
    return "\n".join(
        [
            "# bash completion for nooks-bench",
            "_nooks_bench() {",
            '    local now="${COMP_WORDS[COMP_CWORD]}" before="${COMP_WORDS[COMP_CWORD-1]}" sub="" words="" at',
            "    for ((at = 1; at < COMP_CWORD; at++)); do",
            '        case "${COMP_WORDS[at]}" in',
            f'            {"|".join(valued(whole.options))}) ((at++)) ;;',
            "            -*) ;;",
            '            *) sub="${COMP_WORDS[at]}"; break ;;',
            "        esac",
            "    done",
            '    case "$sub" in',
            '        "")',
            '            case "$before" in',
            *bash_values(whole.options, "                "),
            "            esac",
            f'            words="{names} {options}" ;;',
            *[line for each in inner for line in bash_subcommand(each)],
            "    esac",
            "    COMPREPLY=()",
            '    [[ "$sub" && "$now" != -* ]] || COMPREPLY=($(compgen -W "$words" -- "$now"))',
            "}",
            "complete -o default -F _nooks_bench nooks-bench",
            "",
        ]
    )


def zsh_quoted(text: str) -> str:
    """A text as part of a single-quoted argument of _arguments."""
    return text.replace("\\", "\\\\").replace("[", "\\[").replace("]", "\\]").replace(":", "\\:").replace("'", "'\\''")


def zsh_option(option: Option) -> list[str]:
    """An option in the syntax of _arguments: each name separately, and repeatable."""
    action = "_files" if option.is_file else f"({' '.join(option.choices)})" if option.choices else " "
    value = f":{zsh_quoted(option.value.lower())}:{action}" if option.value else ""
    return [f"'*{name}[{zsh_quoted(option.about)}]{value}'" for name in option.names]


def zsh_bench() -> str:
    """Completion of nooks-bench for zsh."""
    whole, inner = bench()
    specs = [spec for option in whole.options for spec in zsh_option(option)]
    lines = [
        "#compdef nooks-bench",
        "local context state state_descr line",
        "typeset -A opt_args",
        "local -a subcommands",
        "subcommands=(",
    ]
    lines += [f"    '{each.name}:{zsh_quoted(each.about)}'" for each in inner]
    lines += [")", f"_arguments -C {' '.join(specs)} '1: :->subcommand' '*:: :->rest'", 'case "$state" in']
    lines += [
        "    subcommand) _describe -t commands subcommand subcommands ;;",
        "    rest)",
        '        case "$line[1]" in',
    ]
    for each in inner:
        own = " ".join(spec for option in each.options for spec in zsh_option(option))
        lines.append(f"            {each.name}) _arguments {own} '*: :_files' ;;")
    lines += ["        esac ;;", "esac", ""]
    return "\n".join(lines)
