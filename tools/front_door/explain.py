"""What a complaint of the program means, and where it points. Explaining costs no more than answering.

A complaint tells a byte, a number or a name. A byte is shown as it is. For the others the program is asked once more, about a source
that is changed so that its complaint tells the byte: it alone knows the language.
"""
from __future__ import annotations

import contextlib
import re
import signal
from collections import Counter
from collections.abc import Callable, Iterator

from outline import values_of
from turns import Counted, turns_of

from .base import number
from .bundle import Bundle, Part
from .certificate import Certificate, certificate_of, size_of, wish_of
from .idioms import advice_on
from .memory import NO_MEMORY, said_of_memory
from .place import Place
from .program import Answer
from .records import field_start, record_start
from .words import OF_RTL, Words
from .wrong_words import said_of

ENDS_EARLY = "the source ends here, before it is complete"
# What a reason says. {0}, {1} and {2} are the numbers of its line, {name} what stands at its place.
REASONS = {
    "BadByte": "no token begins with this byte",
    "OpenComment": "this comment has no end",
    "LargeNumber": "a number is at most 9223372036854775807",
    "TooMany": "a source has at most 8,192 tokens, and one more begins here",
    "Syntax": "no source goes on like this",
    "UnknownName": "this name isn't declared here, or isn't of the kind that is wanted in this place",
    "Duplicate": "this name stands for something already",
    "Unbound": "this parameter has no value: give it one, as {name}=8",
    "NotAffine": "a bound, step, guard, subscript or extent has to be affine: no product of two loop variables, no array, and min or "
    "max at the top of a bound alone",
    "WrongCount": "this array is declared with another number of subscripts",
    "ElseForm": "an else needs a guard of one comparison that isn't ==",
    "StepMax": "a loop with a step above 1 needs a lower bound of one expression, and no max of several",
    "StepRange": "the step of a loop is at least 1",
    "TooManyProcesses": "this would be the 65th process, and a network has at most 64",
    "TooDeep": "at most 6 loops stand round a statement, and an array has at most 6 extents",
    "TooManyReads": "this is the ninth read of this right side, which has at most 8",
    "TooManyRows": "the loops and guards round this statement give it more than 32 inequalities",
    "Large": "this is below -2147483647 or above 2147483647",
    "LoopValue": "a bound of this loop is below -4611686018427387904 or above 4611686018427387904",
    "TooLong": "the source, the data and the certificate are more than 67,108,864 bytes together",
    "NoPart": "check wants a network with its certificate: --certificate FILE",
    "UnknownArray": "no in or inout array has this name",
    "Twice": "an earlier record is for this array",
    "Count": "this record has {1} values, and its array has {2} cells",
    "NotANumber": "this is no value: a value is decimal digits with or without a - before them, in 64 bits",
    "Missing": "this array has no record in the data",
}
SIZE_LIMIT = 8_388_608
SCRIPT_LIMIT = 65_536
# A larger certificate isn't read again to explain what is wrong with it.
CERTIFICATE_LIMIT = 1 << 20
PROCESSES = 64

PROCESS = re.compile(rb"process (\d+) (\w+) (\w+) fires (\d+) slots \d+")
CHANNEL = re.compile(rb"channel \d+ from (\d+) to (\d+) read \d+ tokens (\d+) ")
# What reading a complaint, a source or a certificate comes to that isn't what was expected: then there is nothing to explain.
UNEXPECTED = (
    ArithmeticError,
    AssertionError,
    AttributeError,
    LookupError,
    RecursionError,
    StopIteration,
    SyntaxError,
    TypeError,
    ValueError,
)


# Asks the program: the words, its command first, and the bundle.
Ask = Callable[[list[str], bytes], Answer]


def said_of_answer(words: Words, bundle: Bundle | None, made: Answer, ask: Ask) -> Iterator[str]:
    """What is said behind an answer of the program that wasn't what was wanted."""
    if made.signal:
        yield f"compaan: the program was ended by {signal.strsignal(made.signal) or 'a signal'} (signal {made.signal})"
    elif made.status == NO_MEMORY and not made.complaint:
        yield said_of_memory(words)
    elif made.complaint.startswith(b"usage: "):
        yield f"compaan: {said_of(words) or 'the program takes no such words (./compaan help)'}"
    else:
        explainer = Explainer(words, bundle, ask)
        yield from explainer.refusal(made.output) if words.command == "check" and made.status == 1 else explainer.complaint(made.complaint)


class Explainer:
    """Explains what the program said of a bundle."""

    def __init__(self, words: Words, bundle: Bundle | None, ask: Ask) -> None:
        self.words, self.ask = words, ask
        # For load there is none, and so no place.
        self.bundle = bundle or Bundle("", b"")
        self.has_places = bundle is not None

    def complaint(self, text: bytes) -> Iterator[str]:
        """What a line on standard error means."""
        found = re.fullmatch(rb"([a-z]+): ([A-Za-z]+)((?: \w+)*)\n", text)
        if not found:
            return
        family, reason, rest = found[1].decode(), found[2].decode(), found[3].decode().split()
        if (family, reason) == ("limit", "Size"):
            yield from self.too_large()
            return
        if (family, reason) == ("limit", "Script"):
            yield from self.long_sequencer(*rest) if self.words.command == OF_RTL else self.long_scripts(int(rest[0]), int(rest[1]))
            return
        place = None
        # A complaint of a form that this script doesn't know is passed on without a place.
        with contextlib.suppress(*UNEXPECTED):
            place = self.place_of(family, reason, rest)
        if place is not None:
            yield from place.lines(ENDS_EARLY if family == "text" and place.at_end else self.why(reason, rest, place))
        elif reason in REASONS:
            yield f"compaan: {REASONS[reason].format(*rest, *['?'] * 3, name='?')}"

    def why(self, reason: str, rest: list[str], place: Place) -> str:
        advice = advice_on(reason, place)
        return advice or REASONS.get(reason, reason).format(*rest, *["?"] * 3, name=place.name_there)

    # ------------------------------------------------------------------------------------------------------------- places

    def place_of(self, family: str, reason: str, rest: list[str]) -> Place | None:
        """The place that a complaint tells, or None where it tells none."""
        if not self.has_places:
            return None
        numbers = [int(it) for it in rest if it.isdigit()]
        if family == "data":
            return self.place_of_name(rest[0]) if reason == "Missing" else self.place_in_data(reason, numbers)
        if (family, reason) == ("limit", "LoopValue"):
            return Place(self.bundle.source, self.loops().byte_of(numbers[0]))
        return Place(self.bundle.source, numbers[0]) if family in ("text", "class", "limit") else None

    def place_in_data(self, reason: str, numbers: list[int]) -> Place | None:
        data = self.bundle.part(1)
        if data is None:
            return None
        text = data.text
        at = record_start(text, numbers[0])
        if at is None:
            return None
        return Place(data, field_start(text, at, numbers[1] if reason == "NotANumber" else 0))

    def place_of_name(self, name: str) -> Place | None:
        """Where an array is declared: the program tells it of a source that declares the name before."""
        return self.place_with(f"var {name}; ", rb"class: Duplicate (\d+)\n")

    def place_with(self, before: str, complaint: bytes) -> Place | None:
        """The place that this complaint tells when so much stands before the source."""
        source = self.bundle.source
        answer = self.ask(self.passed_to("net"), before.encode() + source.text)
        found = re.fullmatch(complaint, answer.complaint)
        return Place(source, int(found[1]) - len(before)) if found and int(found[1]) >= len(before) else None

    def passed_to(self, command: str) -> list[str]:
        return [command if it == self.words.command else it for it in self.words.passed]

    # ------------------------------------------------------------------------------------------------------------- limits

    def loops(self) -> Counted:
        return turns_of(self.bundle.source.text, values_of(self.words.items))

    def too_large(self) -> Iterator[str]:
        """The limit on the size, and the loop that comes to most."""
        limit = f"a program executes at most {number(SIZE_LIMIT)} assignments and turns of loops"
        largest = None
        with contextlib.suppress(*UNEXPECTED):
            largest = self.loops().largest
        if largest is None:
            yield f"compaan: {limit}, and this one executes more"
            return
        what = "this array, the largest, has {} cells" if largest.is_array else "this loop turns up to {} times with those round it"
        yield from Place(self.bundle.source, largest.byte).lines(f"{limit}, and {what.format(number(largest.count))}")

    def long_sequencer(self, process: str, length: str) -> Iterator[str]:
        """The first process whose control has more instructions than a design takes."""
        limit = f"a sequencer has at most {number(SCRIPT_LIMIT)} instructions"
        yield f"compaan: {limit}, and the script of process {process} folds to {number(int(length))} (docs/RTL.md)"

    def long_scripts(self, first: int, length: int) -> Iterator[str]:
        """All processes with more events than VHDL takes. The program tells the first of them."""
        limit = f"VHDL takes at most {number(SCRIPT_LIMIT)} events of a process"
        net = self.ask(self.passed_to("net"), self.bundle.source.text).output
        processes = [(kind.decode(), name.decode(), int(fires)) for _, kind, name, fires in PROCESS.findall(net)]
        lengths = Counter({at: fires for at, (_, _, fires) in enumerate(processes)})
        for writer, reader, tokens in CHANNEL.findall(net):
            lengths[int(writer)] += int(tokens)
            lengths[int(reader)] += int(tokens)
        if lengths[first] != length:
            yield f"compaan: {limit}, and process {first} has {number(length)}"
            return
        for process, (kind, name, _) in enumerate(processes):
            if lengths[process] <= SCRIPT_LIMIT:
                continue
            said = f"process {process}, {kind} {name}, has {number(lengths[process])} events, and {limit}"
            place = None
            with contextlib.suppress(*UNEXPECTED):
                place = self.place_of_process(process, [kind for kind, _, _ in processes], name)
            yield from place.lines(said) if place else [f"compaan: {said}"]

    def place_of_process(self, process: int, kinds: list[str], name: str) -> Place | None:
        """Where the array or the assignment of a process stands: the program tells where the 65th process is."""
        if kinds[process] != "assign":
            return self.place_of_name(name)
        # Arrays stand before assignments, and each has a process for its reading and one for its printing.
        before = len(kinds) - kinds.count("assign") + kinds[:process].count("assign")
        names = ", ".join(f"a_name_of_no_source_{it}" for it in range(PROCESSES - before))
        return self.place_with(f"in {names}; " if names else "", rb"limit: TooManyProcesses (\d+)\n")

    # ------------------------------------------------------------------------------------------------------------ refusals

    def refusal(self, text: bytes) -> Iterator[str]:
        """What a line `refused ..` of check means, in words of the network."""
        found = re.fullmatch(rb"refused ([A-Za-z]+)((?: [^ \n]+)*)\n", text)
        part = self.bundle.part(2)
        if not found or part is None:
            return
        reason, rest = found[1].decode(), found[2].decode().split()
        with contextlib.suppress(*UNEXPECTED):
            if reason in LINES:
                yield from place_of_line(part, int(rest[0])).lines(LINES[reason])
            elif reason == "Truncated":
                yield from Place(part, part.end - part.first).lines("the certificate ends before its line end, or within a line")
            else:
                yield f"compaan: {refusal_in_words(reason, rest, network_of(part))}"


# What is wrong with a line of a certificate.
LINES = {
    "Line": "this line hasn't the words that its place wants, or stands behind the line end",
    "Number": "a number of this line is out of its range",
    "Deep": "a tree, a proof or a repeat that begins here is nested more than 512 deep",
}


# What is wrong with a tree, by its leaf and what else is told.
TREES = {
    "BadForm": "a form of leaf {0} has another number of variables than there are, or a divisor or the number of forms is wrong",
    "NoWriter": "the statement that leaf {0} names isn't there, or doesn't write what is read",
    "Proofs": "leaf {0} has {1} proofs, and has to have {2}",
    "Proof": "proof {1} of leaf {0} doesn't refute its system ({2})",
    "Overflow": "at turn {0} of the statement a form has too many bits",
}


def place_of_line(part: Part, line: int) -> Place:
    """The place of a line of a part, counted from 1."""
    before = part.text.split(b"\n", line - 1)[: line - 1]
    return Place(part, sum(len(it) + 1 for it in before))


def network_of(part: Part) -> Certificate | None:
    """The network of a certificate, where it can be read and isn't too large to read again."""
    if part.end - part.first > CERTIFICATE_LIMIT:
        return None
    with contextlib.suppress(*UNEXPECTED):
        return certificate_of(part.text.decode())
    return None


def refusal_in_words(reason: str, rest: list[str], network: Certificate | None) -> str:
    """What a reason of the checker says of the network."""
    at = int(rest[0])
    match reason:
        case "NotEnabled":
            return not_enabled(at, network)
        case "Tag":
            return f"{firing(at, network)} with {value_of(rest[1])}, where its read wants {value_of(rest[2])}"
        case "Unended":
            return f"the schedule ends before process {at} does{rest_of(at, network)}"
        case "Class":
            return f"channel {at} is said to be {rest[1]}, and is {rest[2]}: {ends_of(at, network)}"
        case "Long":
            return f"the scripts of processes 0 to {at}, or behind them the schedule, stand for more than 142,606,336 events"
        case "Fires":
            return f"process {at} goes wrong at event {rest[1]} of its script{event_of(at, int(rest[1]), network)}"
        case "Shape":
            return f"process {at} names a channel or a slot that it hasn't, or the network lacks processes or reads of the source"
        case "Source":
            return f"the tree of read {rest[1]} of statement {at} isn't right: {TREES[rest[2]].format(*rest[3:])}"
    raise ValueError(reason)


def not_enabled(entry: int, network: Certificate | None) -> str:
    where = f"at entry {entry} of the schedule"
    if network is None:
        return f"{where} a process is named whose next event can't be made"
    made, process = network.before(entry)
    if process is None or process >= len(network.scripts):
        return f"{where} process {process} is named, and there is none"
    event = network.next_event(process, made[str(process)])
    wish = network.wish(process, made[str(process)])
    if event is None:
        return f"{where} process {process} is named, which has ended"
    channel = int(event.split()[1])
    held, capacity = network.held(channel, made), network.channels[channel].capacity
    state = "empty" if event.startswith("g") else f"full: it holds {held} of {capacity}"
    return f"{where} process {process} {wish}, which is {state}"


def value_of(point: str) -> str:
    """The value that a reference names."""
    names = {"zero": "the zero of a cell that nobody wrote", "empty": "a slot that was never filled"}
    return names.get(point, f"the value of point {point}")


def firing(entry: int, network: Certificate | None) -> str:
    process = network.before(entry)[1] if network else None
    return f"at entry {entry} of the schedule " + (f"process {process} fires" if process is not None else "a process fires")


def rest_of(process: int, network: Certificate | None) -> str:
    if network is None:
        return ""
    made, _ = network.before(sum(map(size_of, network.schedule)))
    return f": it still {network.wish(process, made[str(process)])}"


def ends_of(channel: int, network: Certificate | None) -> str:
    if network is None:
        return "so its reader uses it"
    ends = network.channels[channel]
    return f"so process {ends.reader} uses what process {ends.writer} puts there"


def event_of(process: int, event: int, network: Certificate | None) -> str:
    line = network.next_event(process, event) if network else None
    return "" if network is None else f", where it {wish_of(line)}" + (f" by its line {line}" if line else "")
