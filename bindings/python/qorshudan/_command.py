"""The command `qorshudan`: what it takes, where questions come from, and how answers, refusals and failures are told."""

import argparse
import json
import os
import signal
import sys
from typing import Any, Dict, Iterator, List, NoReturn, Optional, Sequence, Tuple

from qorshudan._answer import Answer, Refusal, WrongUsage
from qorshudan._lines import Failed, numbered, place
from qorshudan._questions import COMMANDS, Command
from qorshudan._show import caret
from qorshudan._version import __version__

ANSWERED, REFUSED, USAGE, FAILED = range(4)

DESCRIPTION = """\
DNS name arithmetic for signers: the canonical order, sorting keys, the ends of the gaps that deny a name.
Every name, number and key that is printed comes from the proved library."""

EPILOG = r"""
A name is written as in zone files, with its final dot: \. is a dot in a label and \200 is octet 200.
A word that begins with a hyphen stands behind --, as in: qorshudan fold -- -a.example.

exit status: 0 answered, 1 refused, 2 wrong usage, 3 input or output failed
example:     qorshudan deny --short example.com. foo.example.com."""


def say(line: str) -> None:
    """A line on standard error; if that is closed or full, nobody can be told."""
    try:
        if sys.stderr is not None:
            sys.stderr.write(line + "\n")
    except OSError:
        pass


def decimal(digits: str) -> int:
    """A number in decimal digits, and nothing else."""
    if not (digits.isascii() and digits.isdigit()):
        raise argparse.ArgumentTypeError(f"'{digits}' is no number")
    # Digits in any number: what is above 64 bits is refused like 0.
    return int(digits[-30:]) if len(digits.lstrip("0")) <= 30 else 1 << 64


# The kinds of denials, but for that of a missing name.
KINDS = {
    "nodata": "deny a type of NAME, which exists",
    "compact": "deny NAME in one record, as RFC 9824 tells",
    "wildcard": "deny NAME beside an answer that a wildcard gave for it",
}


class Parser(argparse.ArgumentParser):
    """argparse's parser, but that help which cannot be written is no success."""

    def _print_message(self, message: str, file: Any = None) -> None:
        if message and file is not None and file is sys.stdout:
            file.write(message)
        elif message:
            say(message.rstrip("\n"))


def parser() -> argparse.ArgumentParser:
    plain = argparse.RawDescriptionHelpFormatter
    top = Parser("qorshudan", description=DESCRIPTION, epilog=EPILOG, formatter_class=plain, allow_abbrev=False)
    top.add_argument("--version", action="version", version=f"qorshudan {__version__}")
    commands = top.add_subparsers(dest="command", metavar="COMMAND", required=True)
    for name, command in COMMANDS.items():
        fields = " ".join("TYPE.." if field == "types" else field.upper() for field in command.fields)
        before = "".join(field.upper() + " " for field in command.fields[: command.before])
        ways = [fields] + (["--read OCTETS"] if command.read else []) + [before + "-f FILE"]
        usage = "\n       ".join(f"qorshudan {name} [options] {way}" for way in ways)
        about = command.purpose[0].upper() + command.purpose[1:] + "."
        one = commands.add_parser(
            name, help=command.purpose, description=about, usage=usage, epilog=EPILOG, formatter_class=plain, allow_abbrev=False
        )
        one.add_argument("words", nargs="*", metavar=fields, help="the question")
        one.add_argument("-f", "--file", metavar="FILE", help="read questions, one a line, from FILE; - is standard input")
        one.add_argument("--json", action="store_true", help="an object a question, as qorshudan(1) tells")
        one.add_argument("--short", action="store_true", help=r"write octets that repeat once, with their number: \255{60}")
        if command.read:
            one.add_argument("--read", action="store_true", help=command.read)
        if name in ("deny", "neighbours", "lookup"):
            one.add_argument("--limit", type=decimal, default=255, metavar="N", help="the most octets of a name of the zone (255)")
        if name == "deny":
            known = one.add_mutually_exclusive_group()
            known.add_argument("--encloser", metavar="NAME", help="the longest ancestor of NAME that exists (the apex)")
            known.add_argument("--names", metavar="FILE", help="names that exist, one a line with its types; what exists is not denied")
            kinds = one.add_mutually_exclusive_group()
            for kind, purpose in KINDS.items():
                kinds.add_argument("--" + kind, dest="kind", action="store_const", const=kind, help=purpose)
            one.add_argument("--types", metavar="TYPES", help="types of an owner that exists, with commas between (RRSIG,NSEC)")
        if name == "lookup":
            one.add_argument("--apex", metavar="NAME", help="the zone's apex (the first name of the list)")
        if name == "neighbours":
            one.add_argument("--depth", type=decimal, default=1, metavar="N", help="labels above the apex of modified ones, 1 to 3 (1)")
            one.add_argument("--hostnames", action="store_true", help="only names of letters, digits and hyphens above the apex")
        if name == "hash":
            one.add_argument("--between", nargs=2, metavar=("FIRST", "SECOND"), help="whether it lies strictly between these two")
        one.set_defaults(parser=one)
    return top


def question(command: Command, options: argparse.Namespace, before: List[str], words: List[str]) -> Dict[str, Any]:
    """A question from its words, and those that came before all questions."""
    fields = ("octets",) if command.read and options.read else command.fields
    if fields == ("types",):
        if not words:
            raise WrongUsage("no type")
        return {"types": words}
    wanted = fields[len(before) :]
    if len(words) != len(wanted):
        raise WrongUsage(f"{len(wanted)} word{'s' if len(wanted) > 1 else ''} wanted ({' '.join(wanted).upper()}), and {len(words)} given")
    return dict(zip(fields, before + words))


def lines(path: str) -> Iterator[Tuple[str, List[str]]]:
    """The lines of a file that are not empty, in words, each with its place."""
    for number, words in numbered(path):
        yield place(path, number), words


def told(refusal: Refusal) -> Dict[str, Any]:
    """A refusal, as JSON has it."""
    return {field: getattr(refusal, field) for field in ("of", "number", "reason", "place", "sentence", "line")}


def complain(where: str, refusal: Refusal) -> None:
    """A refusal on standard error, with a caret under its place."""
    number = f"refused {refusal.number}" if refusal.number else "refused"
    at = "" if refusal.place is None else f" at {refusal.place}"
    say(f"qorshudan: {where}{refusal.where}{refusal.of.replace('_', ' ')}: {number}{at}: {refusal.sentence}")
    if refusal.given is not None:
        for line in caret(refusal.given, refusal.column):
            say(line)


def show(answer: Answer, where: str, is_first: bool) -> None:
    """An answer on standard output, and what is refused on standard error; as JSON all of it in one object."""
    if answer.options.json:
        print(json.dumps({**answer.question, **answer.values, "refused": [told(refusal) for refusal in answer.refusals]}))
        return
    # Answers of several lines to several questions are told apart.
    if where and len(answer.values) > 1 and answer.lines and answer.options.command != "compare":
        print(("" if is_first else "\n") + answer.comment + "question: " + " ".join(answer.words))
    for line in answer.lines:
        print(line)
    if answer.refusals:
        sys.stdout.flush()
    for refusal in answer.refusals:
        complain(where, refusal)


def run(options: argparse.Namespace) -> int:
    """Answers every question, and gives the exit status: the worst of theirs."""
    command = COMMANDS[options.command]
    before: List[str] = []
    if options.file is not None:
        before = options.words
        if len(before) > command.before:
            options.parser.error("a question comes from the command line or from a file, not from both")
        if len(before) < command.before:
            options.parser.error(f"no {command.fields[0]} stands before -f")
        if options.file == "-" and "-" in [*before, getattr(options, "names", None)]:
            options.parser.error("standard input can be read for one thing alone")
    questions = [("", options.words)] if options.file is None else lines(options.file)
    status, is_first = ANSWERED, True
    for where, words in questions:
        try:
            answer = Answer(question(command, options, before, words), words, options)
            command.answer(answer)
        except WrongUsage as wrong:
            if not where:
                options.parser.error(str(wrong))
            say(f"qorshudan: {where}{wrong}")
            status = max(status, USAGE)
            continue
        show(answer, where, is_first)
        is_first = is_first and not answer.lines
        status = max(status, REFUSED if answer.refusals else ANSWERED)
    return status


def finish(status: int) -> NoReturn:
    """Ends with an exit status. What is left to be written is tried once, and not again when Python ends."""
    for stream in (sys.stdout, sys.stderr):
        try:
            if stream is not None:
                stream.flush()
        except OSError:
            pass
    os._exit(status)


def main(arguments: Optional[Sequence[str]] = None) -> NoReturn:
    """The command. It ends the process with its exit status."""
    signal.signal(signal.SIGINT, signal.SIG_DFL)
    try:
        if sys.stdout is None:
            raise Failed("standard output is closed")
        try:
            status = run(parser().parse_args(arguments))
        except SystemExit as ended:
            # argparse's help, version or wrong usage
            status = ended.code if isinstance(ended.code, int) else USAGE
        sys.stdout.flush()
    except BrokenPipeError:
        # whoever read has heard enough
        finish(FAILED)
    except Failed as failed:
        say(f"qorshudan: {failed}")
        finish(FAILED)
    except OSError as error:
        say(f"qorshudan: standard output: {error.strerror}")
        finish(FAILED)
    finish(status)
