"""The command, `python3 -m mc33`. Each subcommand has a function that adds its parser and one that runs it."""
from __future__ import annotations

import argparse
import sys
from typing import Any, Callable, Optional, Sequence

from . import files
from .buffers import CORNERS, NUMBERS
from .lists import choose_list, choose_list_signs
from .refusals import Refused
from .release import VERSION
from .tables import ROW

DONE, REFUSED, FAILED = 0, 1, 2
ARGUMENTS = {
    "corners": "8 corner values a cube, f32; .npy flat or (n, 8)",
    "numbers": "2 numbers a cube, case and configuration, i8; .npy flat or (n, 2)",
    "answers": f"the file to write: {ROW} bytes a cube; .npy (n, {ROW}) of uint8",
}
FILES = "A name that ends in .npy is a numpy file; any other is raw, little-endian; - is standard input or output."
STATUSES = "Status: 0 done; 1 refused, and nothing written; 2 could not read or write. Standard error tells why."


def _add(subcommands: Any, name: str, about: str, run: Callable[[argparse.Namespace], None], *given: str) -> None:
    parser = subcommands.add_parser(name, help=about, description=f"{about} {FILES}", epilog=STATUSES)
    for argument in *given, "answers":
        parser.add_argument(argument, help=ARGUMENTS[argument])
    parser.set_defaults(run=run)


def _add_list(subcommands: Any) -> None:
    _add(subcommands, "list", "Chooses for a list of cubes in files.", _run_list, "corners", "numbers")


def _run_list(asked: argparse.Namespace) -> None:
    if asked.corners == asked.numbers == "-":
        raise files.Malformed("corners and numbers cannot both come from standard input")
    corners, numbers = files.read(asked.corners, CORNERS), files.read(asked.numbers, NUMBERS)
    files.write(asked.answers, choose_list(corners, numbers))


def _add_list_signs(subcommands: Any) -> None:
    about = "Chooses for a list of cubes in files by their signs: a corner counts where its value is above 0."
    _add(subcommands, "list-signs", about, _run_list_signs, "corners")


def _run_list_signs(asked: argparse.Namespace) -> None:
    files.write(asked.answers, choose_list_signs(files.read(asked.corners, CORNERS)))


def _parser() -> argparse.ArgumentParser:
    parser = argparse.ArgumentParser(
        prog="python3 -m mc33", description="The proved Marching Cubes 33 chooser.", epilog=STATUSES)
    parser.add_argument("--version", action="version", version=f"mc33 {VERSION}")
    subcommands = parser.add_subparsers(metavar="COMMAND", required=True)
    _add_list(subcommands)
    _add_list_signs(subcommands)
    return parser


def main(arguments: Optional[Sequence[str]] = None) -> int:
    """Runs the command and gives its status."""
    asked = _parser().parse_args(arguments)
    try:
        asked.run(asked)
        return DONE
    except Refused as refused:
        print(f"mc33: {refused}", file=sys.stderr)
        return REFUSED
    except (OSError, ImportError, MemoryError, files.Malformed) as error:
        print(f"mc33: {str(error) or 'no memory'}", file=sys.stderr)
        return FAILED
