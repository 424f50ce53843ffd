"""The completion of the command line of a program or an installed script, for bash and zsh, made from its own help."""
import re
from collections.abc import Iterable

import script_help
from script_help import Help, Item

BASH = """\
# Completion of @NAME@'s command line for bash, made from its help.

_@FUNCTION@_files() {
    compopt -o filenames
    mapfile -t COMPREPLY < <(compgen -f -- "$1")
}

_@FUNCTION@() {
    local current=$2 act=@ACT@ options="" files="" word at
    COMPREPLY=()
    for ((at = 1; at < COMP_CWORD; at++)); do
        case "$act $at ${COMP_WORDS[COMP_CWORD - at]}" in
@VALUES@
        esac
    done
@ACTS@
    for word in "${COMP_WORDS[@]:1:COMP_CWORD - 1}"; do
        options=${options/ "$word" / }
        case "$act $word" in
@CONFLICTS@
        esac
    done
    if [ -n "$files" ] && [[ $current != -* ]]; then
        _@FUNCTION@_files "$current"
    else
        mapfile -t COMPREPLY < <(compgen -W "$options" -- "$current")
    fi
}

complete -F _@FUNCTION@ @NAME@
"""


def parts(said: Help) -> dict[str, Help]:
    """The help of each act by its name, or that of a command without acts by no name."""
    return said.acts or {"": said}


def spaced(options: Iterable[Item]) -> str:
    """The names of options as bash has them, a blank around each."""
    return f" {'  '.join(name for item in options for name in script_help.names(item))} "


def bash_values(said: Help, function: str) -> list[str]:
    """The branches for what follows an option with values: a file, one of some words, or something of which nothing is known.
    Each begins with the act, if there are several, and the value's place."""
    by_act: dict[str, dict[str, None]] = {}
    for name_of_act, item in ((name, item) for name, one in parts(said).items() for item in one.options):
        for place, value in enumerate(script_help.values(item), 1):
            act = f'_{function}_files "$current"; return' if script_help.is_file(value) else "return"
            if script_help.choices(item):
                act = f'mapfile -t COMPREPLY < <(compgen -W "{" ".join(script_help.choices(item))}" -- "$current"); return'
            by_act.setdefault(act, {}).update(
                (f'"{name_of_act} {place} {name}"', None) for name in script_help.names(item))
    return [f"            {' | '.join(places)}) {act} ;;" for act, places in by_act.items()] or ["            *) ;;"]


def bash_acts(said: Help) -> list[str]:
    """What sets the options and whether files are offered, by the act where there are several."""
    if not said.acts:
        return [f'    options="{spaced(said.options)}" files={"yes" if script_help.has_files(said) else ""}']
    first = [*said.acts, *["help"] * said.has_help]
    offered = " ".join([*first, *(name for item in said.options for name in script_help.names(item) if name.startswith("--"))])
    lines = ['    if [ "$COMP_CWORD" -eq 1 ]; then', f'        mapfile -t COMPREPLY < <(compgen -W "{offered}" -- "$current")',
             "        return", "    fi", '    case "$act" in']
    lines += [f'        {act}) options="{spaced(own.options)}" files={"yes" if script_help.has_files(own) else ""} ;;'
              for act, own in said.acts.items()]
    return [*lines, *[f'        help) options=" {"  ".join(said.acts)} " ;;'] * said.has_help, "    esac"]


def bash(name: str, said: Help) -> str:
    """The completion for bash."""
    apart = [f'            {act or "*"}" {one}") {"; ".join(f"options=${{options/ {other} / }}" for other in others)} ;;'
             for act, own in parts(said).items() for one, others in script_help.conflicts(own.options).items()]
    function, text = re.sub(r"\W", "_", name), BASH
    for mark, filled in (("FUNCTION", function), ("NAME", name), ("ACT", "${COMP_WORDS[1]-}" if said.acts else '""'),
                         ("VALUES", "\n".join(bash_values(said, function))), ("ACTS", "\n".join(bash_acts(said))),
                         ("CONFLICTS", "\n".join(apart or ["            *) ;;"]))):
        text = text.replace(f"@{mark}@", filled)
    return text


def quoted(text: str) -> str:
    """A text within a specification of zsh's _arguments, in single quotes."""
    for mark in "\\[]:":
        text = text.replace(mark, f"\\{mark}")
    return text.replace("'", "'\\''")


def action(item: Item, value: str) -> str:
    """What zsh offers for a value: files, some words, or nothing."""
    return f"({' '.join(script_help.choices(item))})" if script_help.choices(item) else "_files" if script_help.is_file(value) else " "


def specifications(said: Help) -> list[str]:
    """How zsh's _arguments is told of a command's options and words."""
    found, conflicts = [], script_help.conflicts(said.options)
    for item in said.options:
        names = script_help.names(item)
        values = "".join(f":{quoted(value)}:{action(item, value)}" for value in script_help.values(item))
        beside = [*(names if len(names) > 1 else []), *conflicts.get(names[-1], [])]
        apart = f"({' '.join(beside)})" if beside else ""
        found += [f"'{apart}{name}[{quoted(item.help)}]{values}'" for name in names]
    if script_help.has_files(said):
        found.append("'*:file:_files'")
    elif said.words:
        # An empty list: where the words weren't named at all, no option would be offered behind one.
        found.append(f"'*:{quoted(said.words[0].term)}:()'")
    return found


def arguments(said: Help, indent: str) -> str:
    """A call of _arguments."""
    lines = specifications(said)
    return f"{indent}_arguments \\\n" + " \\\n".join(f"{indent}    {line}" for line in lines)


def zsh(name: str, said: Help) -> str:
    """The completion for zsh."""
    head = f"#compdef {name}\n# Completion of {name}'s command line for zsh, made from its help.\n\n"
    if not said.acts:
        return f"{head}{arguments(said, '')}\n"
    first = " ".join([*said.acts, *["help"] * said.has_help])
    own = [line for line in specifications(said._replace(words=[]))] if said.has_help else []
    lines = ["local curcontext=$curcontext state line", "typeset -A opt_args",
             " \\\n    ".join(["_arguments -C", *own, f"'1:act:({first})'", "'*::word:->words'"]), "case $state in", "words)",
             "    case $words[1] in"]
    for act, part in said.acts.items():
        lines += [f"    {act})", arguments(part, "        "), "        ;;"]
    if said.has_help:
        lines += ["    help)", f"        _arguments '1:act:({' '.join(said.acts)})'", "        ;;"]
    return head + "\n".join([*lines, "    esac", "    ;;", "esac", ""])
