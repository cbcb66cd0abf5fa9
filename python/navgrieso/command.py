"""The command `nav`: queries over CSV files, and documents checked and drawn."""
from __future__ import annotations

import argparse
import os
import sys
from collections.abc import Sequence

from . import completions, document_commands, kinds_command, program, query_command
from .errors import NavgriesoError
from .version import VERSION

ABOUT = """\
usage: nav QUERY FILE..          answers a query over CSV files
       nav kinds FILE..          shows the kinds of their columns, as they were guessed
       nav check QUERY FILE..    tells what is wrong with a query, or with a document, and prints
       nav check DOCUMENT        the nodes of its plan with their columns
       nav plan QUERY FILE..     draws the plan of a query, or of a document
       nav plan DOCUMENT
       nav explain QUERY FILE..  tells the physical plan of a query, or of a document
       nav explain DOCUMENT
       nav completions SHELL     writes what bash or zsh reads to complete these words
       nav --version             tells the versions of nav and of the program

`nav query --help`, `nav check --help` and so on say more. All ask the program plan_tool, which they
find by --plan-tool PROGRAM, by the variable PLAN_TOOL, or where `rt run` built it in the checkout.

It ends with 0 where all went well, 2 to 9 where the program or nav refused something (2 words, 3 a
text that is no query or no document, 4 a plan that isn't valid, 5 data that broke it, 6 and 7
reading and writing, 8 more than 64 MiB, 9 memory), 1 for all else, and 130 where it was stopped.
"""
COMMANDS = {
    "query": query_command,
    "check": document_commands.CHECK,
    "plan": document_commands.PLAN,
    "explain": document_commands.EXPLAIN,
    "kinds": kinds_command.KINDS,
    "completions": completions.COMPLETIONS,
}
# The status of what was stopped by the user, as shells have it.
STOPPED = 130


def main(words: Sequence[str] | None = None) -> int:
    """Runs `nav` with these words, or with those of the process, and gives the status that it ends
    with.

    That is the program's where it refused something, 2 for words that are no command, 130 where
    it was stopped, and 1 for all else.
    """
    words = list(sys.argv[1:] if words is None else words)
    if not words or words[0] in ("-h", "--help"):
        print(ABOUT, end="", file=sys.stdout if words else sys.stderr)
        return 0 if words else 2
    if words[0] == "--version":
        return _tell_version(words[1:])
    # A query begins with `from`, so no name of a command is one.
    name = words.pop(0) if words[0] in COMMANDS else "query"
    command = COMMANDS[name]
    parser = argparse.ArgumentParser(
        prog="nav" if name == "query" else f"nav {name}",
        description=command.ABOUT,
        epilog=command.EXAMPLES,
        formatter_class=argparse.RawDescriptionHelpFormatter,
        allow_abbrev=False,
    )
    command.add_words(parser)
    parser.add_argument("--plan-tool", metavar="PROGRAM", help="the program to ask")
    given = parser.parse_args(words)
    try:
        status = command.run(given)
        sys.stdout.flush()
        return status
    except BrokenPipeError:
        # Whoever read this has enough; what is left must not fail again when Python ends.
        os.dup2(os.open(os.devnull, os.O_WRONLY), sys.stdout.fileno())
        return 1
    except KeyboardInterrupt:
        print("nav: stopped", file=sys.stderr)
        return STOPPED
    except (NavgriesoError, OSError) as error:
        sys.stdout.flush()
        print(f"nav: {error}", file=sys.stderr)
        return getattr(error, "status", None) or 1


def _tell_version(words: Sequence[str]) -> int:
    """Tells the versions of this client and of the program."""
    parser = argparse.ArgumentParser(prog="nav --version", allow_abbrev=False)
    parser.add_argument("--plan-tool", metavar="PROGRAM")
    given = parser.parse_args(words)
    print(f"nav {VERSION}")
    try:
        print(program.version(given.plan_tool))
    except NavgriesoError as error:
        print(f"nav: {error}", file=sys.stderr)
    return 0


if __name__ == "__main__":
    sys.exit(main())
