"""Joins the parts: what a call is for, which program answers it, and what is said of its answer."""
import os
import sys

from .base import COMPAAN, RTL, TYPE_CHECKING, Status, Stop, printable, put, tell, write_all
from .bundle import bundle_of
from .ending import ended
from .kept import proved_program, unproved_program
from .program import run
from .words import COMMANDS, OF_RTL, words_of

if TYPE_CHECKING:
    from .bundle import Bundle
    from .program import Answer
    from .words import Words

UNPROVED = "compaan: UNPROVED: the program of this answer was compiled without a proof; ./compaan build makes the proved one"
# The program's own status where standard output or standard error failed.
NOT_SAID = 4


def main(arguments: list[str]) -> int:
    """Answers a call, and gives the status."""
    return ended(lambda: answer(arguments))


def answer(arguments: list[str]) -> int:
    """Does what a call is for, and gives its status."""
    if not arguments:
        from .help import help_text

        tell(help_text().rstrip())
        return Status.WRONG_WORDS
    if arguments[0] == "c" and "--help" not in arguments:
        from .tools import run_tool, with_package

        return run_tool(with_package("pycparser"), "from_c.py", arguments[1:])
    words = words_of(arguments)
    if words.wants_help or words.command == "help":
        from .help import command_help, help_text

        about = words.file if words.command == "help" else words.command
        put((command_help(about) if about is not None and about in COMMANDS else help_text()).encode())
        return 0
    if words.command == "build":
        return build_by(words)
    if words.command == "report":
        return report(words)
    return call(words)


def report(words: "Words") -> int:
    """Writes the page about a program and its network."""
    from .tools import run_tool

    if words.file is None or words.file == "-":
        raise Stop(Status.WRONG_WORDS, "report wants the source as a FILE (./compaan report --help)")
    program, is_unproved = program_for(words)
    if is_unproved:
        tell(UNPROVED)
    data = ["--data", words.data] if words.data else []
    return run_tool(sys.executable, "report.py", [program, words.file, *words.passed[1:], *data])


def build_by(words: "Words") -> int:
    from .proved import build, take_built
    from .unproved import make_unproved

    rest = words.passed[1:]
    if words.file is not None or rest not in ([], ["--built"]) or (rest and words.unproved):
        raise Stop(Status.WRONG_WORDS, "build takes --unproved, --built or nothing (./compaan build --help)")
    if rest:
        return take_built()
    if not words.unproved:
        return build()
    tell(f"compaan: the unproved program of these sources is {make_unproved(again=True)}; ./compaan build makes the proved one")
    return 0


def program_for(words: "Words", name: str = COMPAAN) -> tuple[str, bool]:
    """The program that answers, and whether nothing is proved of it. It is made where there is none."""
    named = os.environ.get(name.upper())
    if named and not words.unproved:
        return named, False
    proved = None if words.unproved else proved_program(name)
    if proved is not None:
        return proved, False
    made = unproved_program(name)
    if made is None:
        from .unproved import make_unproved

        refuse_wrong_words(words)
        made = make_unproved(name=name)
    return made, True


def refuse_wrong_words(words: "Words") -> None:
    """Stops at words that the program would refuse, since to have it say so it would have to be made."""
    from .wrong_words import said_of

    wrong = said_of(words)
    if wrong is not None:
        raise Stop(Status.WRONG_WORDS, wrong)


def call(words: "Words") -> int:
    """Runs the program on a call's bundle, and explains what it refuses."""
    if words.isl and words.command != "deps":
        raise Stop(Status.WRONG_WORDS, "--isl goes with deps (./compaan deps --help)")
    is_drawn = words.command == "draw"
    if is_drawn:
        words.command = "net"
        words.passed[words.passed.index("draw")] = "net"
    bundle = read_bundle(words)
    is_rtl = words.command == OF_RTL
    program, is_unproved = program_for(words, RTL if is_rtl else COMPAAN)
    if is_unproved:
        tell(UNPROVED)
    # What check says is read to explain it.
    is_read = is_drawn or words.isl or (words.command == "check" and sys.stdout is not None)
    passed = words.passed_to_rtl if is_rtl else words.passed
    made = run(program, passed, None if bundle is None else bundle.bytes, is_read)
    if is_drawn and made.status == 0:
        from .draw import draw

        draw(made.output, source_of(bundle), " ".join([os.path.basename(words.file or "network"), *words.passed[1:]]))
        return 0
    if words.isl and made.status == 0:
        from maps import isl_text
        from outline import values_of

        put(isl_text(made.output.decode(), source_of(bundle), values_of(words.items)).encode())
        return 0
    if not passed_on(made, is_read):
        return NOT_SAID
    if made.status and sys.stderr is not None:
        explain(words, bundle, made, None if is_rtl else program)
    return made.status


def first_program() -> str:
    """The first program, which knows what a complaint of the second means, where it is there."""
    found = os.environ.get("COMPAAN") or proved_program() or unproved_program()
    if found is None:
        raise Stop(Status.NO_PROGRAM, "there is no program that explains it")
    return found


def source_of(bundle: "Bundle | None") -> bytes:
    return bundle.source.text if bundle is not None else b""


def read_bundle(words: "Words") -> "Bundle | None":
    if words.file is None:
        if words.reads_nothing or sys.stdin is None:
            return None
        if sys.stdin.isatty():
            tell("compaan: no FILE is given: the source is read from standard input")
    return bundle_of(words)


def passed_on(made: "Answer", is_read: bool) -> bool:
    """Writes what was read of the program as it is. Where that fails, the program's status would have said so."""
    try:
        if is_read:
            write_all(1, made.output)
        if made.complaint:
            write_all(2, made.complaint)
    except OSError:
        return False
    return True


def explain(words: "Words", bundle: "Bundle | None", made: "Answer", program: "str | None") -> None:
    """Says on standard error what a refusal, want of memory or an end by a signal means. Where that can't be told, it is what it is."""
    try:
        from .explain import UNEXPECTED, said_of_answer
    except (ImportError, MemoryError) as error:
        tell(f"compaan: what it means can't be told: {error or 'memory is wanting'}")
        return
    try:
        for line in said_of_answer(words, bundle, made, lambda passed, text: run(program or first_program(), passed, text, True)):
            tell(printable(line))
    except (*UNEXPECTED, MemoryError, OSError, Stop):
        pass
