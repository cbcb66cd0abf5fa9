"""`nav completions SHELL`: what bash or zsh reads to complete the words of `nav`."""
from __future__ import annotations

import argparse
import sys

COMMANDS = ("query", "check", "plan", "explain", "kinds", "completions")
FLAGS = (
    "--schema --sep --null --strict --csv --json --all --output --plan-tool --help --version "
    "--dot --svg --physical"
).split()

BASH = """\
_nav() {{
    local word=${{COMP_WORDS[COMP_CWORD]}}
    if [[ $word == -* ]]; then
        COMPREPLY=($(compgen -W '{flags}' -- "$word"))
    elif [[ $COMP_CWORD == 1 ]]; then
        COMPREPLY=($(compgen -W '{commands}' -- "$word"))
    elif [[ ${{COMP_WORDS[1]}} == completions ]]; then
        COMPREPLY=($(compgen -W 'bash zsh' -- "$word"))
    else
        COMPREPLY=($(compgen -f -- "$word"))
    fi
}}
complete -o filenames -F _nav nav
"""
ZSH = """\
#compdef nav
_nav() {{
    if [[ $words[CURRENT] == -* ]]; then
        compadd -- {flags}
    elif (( CURRENT == 2 )); then
        compadd -- {commands}
    elif [[ $words[2] == completions ]]; then
        compadd -- bash zsh
    else
        _files
    fi
}}
compdef _nav nav
"""
SHELLS = {"bash": BASH, "zsh": ZSH}


class Completions:
    """`nav completions`."""

    ABOUT = "Writes what a shell reads to complete the words of nav."
    EXAMPLES = (
        "examples:\n  nav completions bash > ~/.local/share/bash-completion/completions/nav\n"
        '  eval "$(nav completions zsh)"   # in ~/.zshrc, behind compinit'
    )

    @staticmethod
    def add_words(parser: argparse.ArgumentParser) -> None:
        """Adds what `nav completions` takes."""
        parser.add_argument("shell", choices=tuple(SHELLS))

    @staticmethod
    def run(given: argparse.Namespace) -> int:
        """Writes the text for a shell."""
        sys.stdout.write(
            SHELLS[given.shell].format(flags=" ".join(FLAGS), commands=" ".join(COMMANDS))
        )
        return 0


COMPLETIONS = Completions()
