"""`python3 -m cohom ring|compare|ask|shell|show|convert`; without words the prompt of `shell`.

Statuses: 0; 1 for a refusal or a difference found; 2 for bad input.
"""

from __future__ import annotations

import argparse
import os
import sys
from typing import Any, Dict, List, Optional, Tuple

from .commands import ask, compare, convert, ring, shell, show
from .commands.common import BAD_INPUT, REFUSED
from .errors import ChangedByOthers, CohomError, FacetRefused, InputFault, Refusal, Stopped

COMMANDS: Dict[str, Tuple[Any, str]] = {
    "ring": (ring, "the cohomology ring of a complex, with operations and characteristic classes"),
    "compare": (compare, "which invariants modulo 2 tell two complexes apart"),
    "ask": (ask, "requests of the language about a file"),
    "shell": (shell, "a prompt"),
    "show": (show, "a script and its replies in two columns"),
    "convert": (convert, "a file of another tool as facets for the program"),
}


def parser() -> argparse.ArgumentParser:
    top = argparse.ArgumentParser(prog="cohom", description="Cohomology modulo 2 of simplicial complexes.")
    top.add_argument("--program", help="the program (else COHOM of the environment, else that of the checkout)")
    parts = top.add_subparsers(dest="command", metavar="COMMAND", required=True)
    for name, (module, words) in COMMANDS.items():
        module.add(parts.add_parser(name, help=words, description=module.__doc__))
    return top


def main(arguments: Optional[List[str]] = None) -> int:
    """Runs one command and gives its status."""
    words = parser().parse_args((sys.argv[1:] if arguments is None else arguments) or ["shell"])
    try:
        status = int(COMMANDS[words.command][0].run(words))
        sys.stdout.flush()
        return status
    except BrokenPipeError:
        os.dup2(os.open(os.devnull, os.O_WRONLY), sys.stdout.fileno())
        return 0
    except (InputFault, Stopped, FacetRefused, ChangedByOthers) as fault:
        print(f"cohom: {fault}", file=sys.stderr)
        return REFUSED if isinstance(fault, Refusal) else BAD_INPUT
    except CohomError as fault:
        print(f"cohom: {fault}", file=sys.stderr)
        return REFUSED
    except KeyboardInterrupt:
        return 130


if __name__ == "__main__":
    sys.exit(main())
