"""The command `dedale-tools`: each of its words is a command of its own."""
import importlib
import os
import sys
from typing import Protocol, Sequence, cast

from dedale.errors import DedaleError
from dedale.version import __version__

FAILED = 1
BAD_WORDS = 2
STREAM_FAILED = 4
INTERRUPTED = 130

# a word, the module whose `main` it runs, and what that does
COMMANDS = {
    "annotate": ("dedale.annotate", "the lines of a script whose statements were refused"),
    "area": ("dedale.exporting.command", "the areas of regions in an answer"),
    "desk": ("dedale.desk.command", "a person at a terminal, over a database in a file"),
    "export": ("dedale.exporting.command", "answers as WKT, GeoJSON or CSV"),
    "import": ("dedale.importing.command", "a map or a table as a script"),
}

USAGE = "usage: dedale-tools WORD ..   or --help or --version"


class Command(Protocol):
    """A module that holds a command."""

    def main(self, arguments: Sequence[str]) -> int:
        """Runs the command with its words, the first of which names it, and returns its exit status."""


def help_text() -> str:
    """The text of `--help`."""
    words = "\n".join(f"  {word:10} {does}" for word, (_, does) in COMMANDS.items())
    return f"{USAGE}\n\n{words}\n\n`dedale-tools WORD --help` says more of each."


def run(arguments: Sequence[str]) -> int:
    """Runs the command that the first word names with all words, and returns its exit status."""
    word = arguments[0] if arguments else ""
    if word in COMMANDS:
        module, _ = COMMANDS[word]
        return cast(Command, importlib.import_module(module)).main(arguments)
    if list(arguments) in (["--version"], ["-V"]):
        print(f"dedale-tools {__version__}")
        return 0
    if list(arguments) in (["--help"], ["-h"]):
        print(help_text())
        return 0
    if word:
        print(f"dedale-tools: {word} is no command", file=sys.stderr)
    print(help_text(), file=sys.stderr)
    return BAD_WORDS


def main() -> int:
    """Runs the command that the program's words name, and returns the exit status of the program.

    It is 1 for an error of this package that the command leaves to this function, 4 where standard input or output fails, of
    which nothing is said where the reader of the output has ended, and 130 after an interrupt."""
    if not (sys.stdin and sys.stdout and sys.stderr):
        print("dedale-tools: standard input, output or error is closed", file=sys.stderr)
        return STREAM_FAILED
    try:
        status = run(sys.argv[1:])
        sys.stdout.flush()
        return status
    except KeyboardInterrupt:
        return INTERRUPTED
    except DedaleError as error:
        return _fail(error, FAILED)
    except BrokenPipeError:
        _drop_output()
        return STREAM_FAILED
    except OSError as error:
        _drop_output()
        return _fail(error.strerror or error, STREAM_FAILED)


def _fail(error: object, status: int) -> int:
    """Tells an error, and returns the status."""
    print(f"dedale-tools: {error}", file=sys.stderr)
    return status


def _drop_output() -> None:
    """Has what is still in the buffer of standard output go nowhere, so that the end of the program writes nothing more."""
    os.dup2(os.open(os.devnull, os.O_WRONLY), sys.stdout.fileno())


if __name__ == "__main__":
    sys.exit(main())
