"""The command `pit-tools`: it loads the one subcommand that is called."""
from __future__ import annotations

import argparse
import difflib
import errno
import importlib
import io
import logging
import os
import re
import sys
import traceback
from contextlib import contextmanager
from typing import Any, Iterator, Optional, Sequence

from pit_tools import commands
from pit_tools.commands import former
from pit_tools.errors import UserError, quoted
from pit_tools.files import inputs
from pit_tools.version import version

#: The packages of `commands`, with the titles of their commands in the help.
TITLES = {"planning": "plan a mine", "looking": "look at it", "solving": "solve it",
          "making": "make many"}

#: The commands with one line on each, by their packages, in the order of the work.
GROUPS = {
    "planning": {
        "import": "zone files and the records grid and zone, of a package's export",
        "plan": "a first plan, from words with units; how steep its walls are",
        "compile": "`pitc compile` with a progress bar, and with reasons for its errors",
        "pit": "the ultimate pit, of an instance or of a plan for each K",
        "back": "a pit or a schedule as coordinates, or on the rows of the export",
        "by-zone": "one instance of several plans, each for some zones",
    },
    "looking": {
        "survey": "how an instance was understood: text, a page, pictures and sections",
        "report": "ore, waste, metal and value of a pit, by bench and destination",
        "nested": "nested pits by price: tonnes, strip ratio and value of each",
        "shell": "pits as surfaces for the package, as DXF, VTK or OBJ",
    },
    "solving": {
        "read": "an instance as arrays and sparse matrices",
        "lp": "UPIT, CPIT and PCPSP as linear programs, UPIT as a maximum flow in DIMACS",
        "solve": "the best schedule of a small instance, and bounds by its relaxation",
        "bounds": "upper bounds of what pits and schedules are worth",
        "check-schedule": "whether a schedule is feasible, and what it is worth",
        "minelib": "published MineLib files to an instance, and back",
    },
    "making": {
        "deposit": "deposits by seed, size and shape, and an export to try import with",
        "vary": "plans that differ in one cell",
        "batch": "many instances, with a manifest of all inputs",
        "bench": "solvers over many instances, within limits, with judged results",
        "library": "a small library of instances with bounds and best known schedules",
    },
}
COMMANDS = {command: message for group in GROUPS.values() for command, message in group.items()}

#: Commands whose --out may be a folder.
TO_FOLDERS = ("deposit", "library", "survey", "vary")

#: The system's errors if no more can be written.
FULL = (errno.ENOSPC, errno.EDQUOT, errno.EFBIG)

#: The option that shows where in the program an error arose.
DEBUG = "--debug"

#: The help before and after the list of the subcommands.
ABOUT = "From a mining package's export to an instance of pitc, and back."
EPILOG = """`pit-tools help COMMAND` prints the options of a command and an example.

The status is 0 on success, 1 if a command finds something wrong and reports it, 2 if an argument or
an input is rejected or a system call fails, 3 on an internal error, and 130 on Ctrl-C."""

#: How each parser reads and prints.
FORM: dict[str, Any] = {"allow_abbrev": False,
                        "formatter_class": argparse.RawDescriptionHelpFormatter}


def module_path(command: str) -> str:
    """The module of a subcommand, within `commands`."""
    group = next(name for name, commands_in in GROUPS.items() if command in commands_in)
    return f"{group}.{'import_' if command == 'import' else command.replace('-', '_')}"


def parser_of(command: str) -> argparse.ArgumentParser:
    """The parser of a subcommand, by its module."""
    return _filled(argparse.ArgumentParser(prog=f"pit-tools {command}", **FORM), command)


class _FullParser(argparse.ArgumentParser):
    """The parser of all commands, whose help has them by their groups."""

    def format_help(self) -> str:
        form = self._get_formatter()
        form.add_usage(self.usage, [one for one in self._actions if not one.choices], [])
        form.add_text(self.description)
        lines = [form.format_help().replace("]\n\n", "] COMMAND ...\n\n", 1)]
        for group, commands_in in [*GROUPS.items(), ("", {"help": "the help of a command"})]:
            title = f"{TITLES[group]}:\n" if group else ""
            lines.append(title + "".join(f"    {command:<15} {message}\n"
                                         for command, message in commands_in.items()))
        form = self._get_formatter()
        form.start_section("options")
        form.add_arguments([one for one in self._actions if not one.choices])
        form.end_section()
        form.add_text(self.epilog)
        return "\n".join([*lines, form.format_help()])


def full_parser() -> argparse.ArgumentParser:
    """The parser of all subcommands: the help, the man page and the completions are made from
    it."""
    full = _FullParser(prog="pit-tools", description=ABOUT, epilog=EPILOG, **FORM)
    full.add_argument("-V", "--version", action="store_true",
                      help="print the version, the interpreter and the packages")
    full.add_argument(DEBUG, action="store_true",
                      help="show where in the program an internal error arose")
    parsers = full.add_subparsers(title="commands", metavar="COMMAND",
                                  parser_class=argparse.ArgumentParser)
    for command, message in COMMANDS.items():
        _filled(parsers.add_parser(command, help=message, **FORM), command)
    about_help = parsers.add_parser("help", help="the help of a command", **FORM)
    about_help.add_argument("command", nargs="?", metavar="COMMAND", choices=list(COMMANDS),
                            help="which command; without it, all")
    return full


def _filled(parser: argparse.ArgumentParser, command: str) -> argparse.ArgumentParser:
    """Returns the parser of a subcommand with its arguments, by its module."""
    module = importlib.import_module("pit_tools.commands." + module_path(command))
    parser.description = module.HELP
    # Python's own types accept `1_0` and digits of other scripts.
    parser.register("type", int, commands.integer)
    parser.register("type", float, commands.number)
    module.add_arguments(parser)
    parser.add_argument("--edited", action="store_true",
                        help="also accepts files that were changed since a command wrote them")
    if hasattr(module, "WRITES"):
        parser.add_argument("--force", action="store_true",
                            help="also replaces files of another kind")
        parser.epilog = "\n\n".join(filter(None, [parser.epilog, replaced(module.WRITES)]))
    parser.set_defaults(run=module.run, force=False, edited=False)
    return parser


def replaced(kinds: str) -> str:
    """Returns what a command's help states about the files that it replaces."""
    return (f"It replaces {kinds} in the form that it writes, and empty files.\n"
            "With --force it also replaces other files with such names, but never a file that it "
            "reads.\nIt writes all its files at the end, or none.")


def joined(words: Sequence[str]) -> list[str]:
    """Returns the arguments, with a value that begins with a minus, as in `--z -DEPTH`, joined to
    its option: `-h` is the only option of `pit-tools` with one letter here."""
    found: list[str] = []
    for word in words:
        is_value = re.match("-[^-]", word) and word != "-h"
        if is_value and found and re.fullmatch("--[a-z-]+", found[-1]):
            found[-1] += "=" + word
        else:
            found.append(word)
    return found


def run(words: Sequence[str]) -> int:
    """Runs a command line; returns the status."""
    if words[:1] == ["help"]:
        words = [*words[1:2], "--help"]
    if not words or words[0] in ("--help", "-h"):
        full_parser().print_help()
        return 0 if words else 2
    if words[0] in ("--version", "-V"):
        print(version())
        return 0
    words = former.renewed(words)
    command = words[0]
    if command not in COMMANDS:
        raise UserError(_unknown(command))
    args = parser_of(command).parse_args(joined(words[1:]))
    base, out = getattr(args, "base", None) or "", getattr(args, "out", None) or ""
    outs = [] if command in TO_FOLDERS else [out] if isinstance(out, str) else out
    for name in (*outs, base):
        if name.endswith("/"):
            raise UserError(f"{quoted(name)} ends in a slash, so it names a folder: give the name "
                            "of a file in it")
    with inputs.of_command(args.force, args.edited, command):
        if base:
            inputs.reads_records_of(base)
        status = args.run(args)
        _flush()
        return status


def _unknown(command: str) -> str:
    """Returns the message for an unknown subcommand, with the nearest one if there is one."""
    near = difflib.get_close_matches(command, COMMANDS, n=1)
    question = f"; did you mean `{near[0]}`?" if near else ":"
    return f"no command `{command}`{question} `pit-tools --help` lists all"


def _flush() -> None:
    """Flushes standard output while an error of that can still be reported."""
    try:
        sys.stdout.flush()
    except BrokenPipeError:
        raise
    except OSError as error:
        raise OSError(error.errno, error.strerror, "standard output") from None


def _ready_streams() -> None:
    """Opens /dev/null in place of closed standard streams: otherwise a file that is opened later
    would take their number and receive what is printed. Characters that the terminal does not have
    are escaped."""
    for number in range(3):
        try:
            os.fstat(number)
        except OSError:
            os.set_inheritable(os.open(os.devnull, os.O_RDWR), True)
    is_printing = sys.stdout is not None
    streams = ((sys.stdin, "r"), (sys.stdout, "w"), (sys.stderr, "w"))
    sys.stdin, sys.stdout, sys.stderr = (
        open(os.devnull, mode, encoding="utf-8")  # pylint: disable=consider-using-with
        if stream is None else stream for stream, mode in streams)
    if isinstance(sys.stdout, io.TextIOWrapper):
        sys.stdout.reconfigure(errors="backslashreplace")
    if not is_printing:
        raise UserError("standard output is closed")


def _message_of(error: BaseException) -> str:
    """Returns an error as one line."""
    if isinstance(error, UserError):
        return str(error)
    if isinstance(error, MemoryError):
        return f"out of memory{f': {error}' if str(error) else ''}"
    if isinstance(error, OSError):
        # A file that is written has its name, so a full disk without a name means standard output.
        named = error.filename or ("standard output" if error.errno in FULL else None)
        place = f"{os.fsdecode(named)}: " if isinstance(named, (str, bytes)) else ""
        return place + (error.strerror or str(error) or "the system call failed")
    if isinstance(error, ImportError):
        return f"a Python package is missing or damaged: {' '.join(str(error).split())}"
    last = traceback.extract_tb(error.__traceback__)[-1]
    return (f"internal error of pit-tools: {type(error).__name__}: "
            f"{' '.join(str(error).split())[:200]} ({os.path.basename(last.filename)}, line "
            f"{last.lineno}): please report it with the command line; --debug shows more")


#: Options that may be empty, and commands that pass their arguments to another program.
MAY_BE_EMPTY, HANDED_ON = ("--missing", "--title", "--options"), ("compile",)


def _judge_words(words: Sequence[str]) -> None:
    """Rejects names that are not UTF-8, since no written file can contain them, and empty values,
    as from an unset variable of the shell: `--out ''` would write nothing."""
    for before, word in zip(["pit-tools", *words], words):
        option = word[:-1] if re.fullmatch("--[A-Za-z-]+=", word) else None if word else before
        if option not in (None, *MAY_BE_EMPTY) and words[0] not in HANDED_ON:
            raise UserError(f"{option} has an empty value: is the shell variable set?")
        try:
            word.encode("utf-8")
        except UnicodeEncodeError:
            raise UserError(f"{os.fsencode(word)!r} is not UTF-8: rename the file, or give a link "
                            "to it") from None


def _is_own(error: BaseException) -> bool:
    """Returns whether the error is internal to this program."""
    return not isinstance(error, (UserError, MemoryError, OSError, ImportError))


def main(words: Optional[Sequence[str]] = None) -> int:
    """Runs a command line; returns the status: 0 done, 1 the command found something wrong, 2
    arguments or an input are rejected, 3 internal error, 130 ended by Ctrl-C."""
    words = list(sys.argv[1:] if words is None else words)
    name = " ".join(["pit-tools", *(words[:1] if words and words[0] in COMMANDS else [])])
    try:
        _ready_streams()
        _judge_words(words)
        with _collected() as warned:
            status = run([word for word in words if word != DEBUG])
        _flush()
        if warned:
            message = warned if DEBUG in words else [f"{warned[0]} ({len(warned)} in all: --debug "
                                                     "prints each)"]
            print(*(f"{name}: a Python package warns: {one}" for one in message), sep="\n",
                  file=sys.stderr)
        return status
    except SystemExit as ended:
        status = ended.code if isinstance(ended.code, int) else int(ended.code is not None)
    except KeyboardInterrupt:
        status = 130
    except BrokenPipeError:
        # Who read, as `head`, has gone.
        status = 1
    except Exception as error:  # pylint: disable=broad-except
        if DEBUG in words:
            traceback.print_exc()
        print(f"{name}: {_message_of(error)}", file=sys.stderr)
        status = 3 if _is_own(error) else 2
    return _with_nothing_to_print(status)


@contextmanager
def _collected() -> Iterator[list[str]]:
    """Collects, one line each, the warnings and log records of packages, which would otherwise
    precede the one line that reports the error."""
    warned: list[str] = []

    class Collecting(logging.Handler):
        """Collects log records."""

        def emit(self, record: logging.LogRecord) -> None:
            warned.append(" ".join(record.getMessage().split()))

    collecting = Collecting(logging.WARNING)
    logging.getLogger().addHandler(collecting)
    logging.captureWarnings(True)
    try:
        yield warned
    finally:
        logging.captureWarnings(False)
        logging.getLogger().removeHandler(collecting)


def _with_nothing_to_print(status: int) -> int:
    """Returns the status, after dropping what can no longer be printed: Python would report it at
    its end."""
    try:
        sys.stdout.flush()
    except (OSError, ValueError):
        os.dup2(os.open(os.devnull, os.O_WRONLY), sys.stdout.fileno())
        return status or 1
    return status


if __name__ == "__main__":
    sys.exit(main())
