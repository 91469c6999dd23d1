"""Shell completion: scripts for bash, zsh and fish, made of the commands' own help."""
from __future__ import annotations

import argparse
import re
import shlex
from dataclasses import dataclass, field
from typing import Any, Callable, Mapping

from .writing import out

SHELLS = ("bash", "zsh", "fish")
_COMMAND = re.compile(r"^    ([a-z]+)(?: +|\n {8,})(\S.*(?:\n {8,}\S.*)*)$", re.MULTILINE)
_OPTION = re.compile(r"^  (-.*?)(?:  .*)?$", re.MULTILINE)


@dataclass
class Command:
    """A command, what it does, and its options, each with the values to choose from, if there are such."""

    name: str
    says: str
    options: dict[str, list[str]] = field(default_factory=dict)


def commands_of(parsers: Mapping[str, argparse.ArgumentParser], helps: Mapping[str, str]) -> list[Command]:
    """The commands, by their parsers."""
    return [Command(name, helps.get(name, ""), _options(parser.format_help())) for name, parser in parsers.items()]


def _options(text: str) -> dict[str, list[str]]:
    """The options of a help text: ``-o FILE, --output FILE``, ``--equal {refuse,drop,later}``."""
    found = {}
    for line in _OPTION.findall(text):
        for name, value in re.findall(r"(--?[a-z][a-z-]*)(?: (\{[^}]*\}))?", line):
            found[name] = value.strip("{}").split(",") if value else []
    return found


def script(shell: str, commands: list[Command]) -> str:
    """The script of a shell."""
    return {"bash": _bash, "zsh": _zsh, "fish": _fish}[shell](commands)


def _cases(commands: list[Command], line: str) -> str:
    """A case for each option that has values to choose from."""
    return "".join(f"        {shlex.quote(f'{command.name} {name}')}) {line.format(' '.join(values))}; return ;;\n"
                   for command in commands for name, values in command.options.items() if values)


def _bash(commands: list[Command]) -> str:
    reply = 'COMPREPLY=($(compgen -W "{}" -- "$current"))'
    options = "".join(f"            {command.name}) {reply.format(' '.join(command.options))} ;;\n" for command in commands)
    return f"""# Completion of delkuthi for bash: eval "$(delkuthi completion bash)"
_delkuthi() {{
    local current=${{COMP_WORDS[COMP_CWORD]}} before=${{COMP_WORDS[COMP_CWORD-1]}} command=${{COMP_WORDS[1]}}
    COMPREPLY=()
    if [ "$COMP_CWORD" -eq 1 ]; then {reply.format(' '.join(command.name for command in commands))}; return; fi
    case "$command $before" in
{_cases(commands, reply)}    esac
    if [[ $current == -* ]]; then
        case $command in
{options}        esac
    fi
}}
complete -o default -F _delkuthi delkuthi
"""


def _zsh(commands: list[Command]) -> str:
    named = " ".join(shlex.quote(f"{command.name}:{command.says}") for command in commands)
    options = "".join(f"            {command.name}) compadd -- {' '.join(command.options)} ;;\n" for command in commands)
    return f"""#compdef delkuthi
# Completion of delkuthi for zsh: eval "$(delkuthi completion zsh)"
_delkuthi() {{
    local -a commands
    commands=({named})
    if (( CURRENT == 2 )); then _describe command commands; return; fi
    case "$words[2] $words[CURRENT-1]" in
{_cases(commands, 'compadd -- {}')}    esac
    if [[ $words[CURRENT] == -* ]]; then
        case $words[2] in
{options}        esac
    else
        _files
    fi
}}
compdef _delkuthi delkuthi
"""


def _fish(commands: list[Command]) -> str:
    lines = ["# Completion of delkuthi for fish: delkuthi completion fish | source"]
    for command in commands:
        lines.append(f"complete -c delkuthi -n __fish_use_subcommand -f -a {command.name} -d {shlex.quote(command.says)}")
        for name, values in command.options.items():
            sort = f"-l {name[2:]}" if name.startswith("--") else f"-s {name[1:]}"
            more = f" -x -a {shlex.quote(' '.join(values))}" if values else ""
            lines.append(f"complete -c delkuthi -n '__fish_seen_subcommand_from {command.name}' {sort}{more}")
    return "\n".join(lines) + "\n"


def add_completion(commands: Any, whole_help: Callable[[], str]) -> None:
    """The command. It reads what the commands do off the help of the whole."""
    one = commands.add_parser("completion", help="a script that completes commands and options in a shell")
    one.add_argument("shell", choices=SHELLS)

    def run(given: argparse.Namespace) -> int:
        says = {name: " ".join(text.split()) for name, text in _COMMAND.findall(whole_help())}
        out(script(given.shell, commands_of(commands.choices, says)))
        return 0

    one.set_defaults(run=run)
