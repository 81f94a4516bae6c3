#!/usr/bin/env python3
"""Runs the examples and inputs of bad form on the built program, and compares output, complaint and status.

usage: tools/examples/check.py [--compaan PROGRAM] [EXAMPLE]..

Of each EXAMPLE (all of examples/ and the inputs of bad form where none is named), under both policies where they matter:

- run, seq      the answer in NAME.answer
- sim           that answer, and the clocks in NAME.clocks
- cert          a certificate that meaning.py accepts, without its trees, and that `check` accepts with them and without
- check         what meaning.py says of that certificate when it is cut, and when a capacity is less
- net           the processes and channels of that certificate, as a whole text
- trim          the least capacities and positions that meaning.py finds by halving in that certificate's network
- trace         a run that can stand as that certificate's schedule
- vhdl          nodes that have the scripts of that certificate, and that come to the answer in so many clocks when they are run
- deps          the last writers that a walk in Python finds, as in sources.py

It prints a line for each difference and one for each comparison that isn't made, and how many comparisons of each kind there were. It
ends with 1 where something differs or isn't made.
"""
from __future__ import annotations

import re
import subprocess
import sys
from collections import Counter
from collections.abc import Iterator
from dataclasses import dataclass, field
from pathlib import Path

sys.path.insert(0, str(Path(__file__).resolve().parents[1]))
from common import EXAMPLES, POLICIES, USAGE, Answer, Example, bundled, examples, parser_of, program_of, run
from examples.sources import sources_fault
from hardware.nodes import GET, PUT, Node, read_nodes, run_nodes
from hardware.wiring import Unfit, read_arrays, read_net
from hostile import meaning
from outline import values_of

ACCEPTED = Answer(0, b"accepted\n", b"")


@dataclass
class Tally:
    """How many comparisons of each kind were made, and how many differed or weren't made."""

    counts: Counter[str] = field(default_factory=Counter)
    different: int = 0
    not_made: int = 0

    def compare(self, kind: str, name: str, got: Answer, wanted: Answer) -> None:
        self.judge(kind, name, got == wanted, f"{shown(got)} for {shown(wanted)}")

    def judge(self, kind: str, name: str, is_right: bool, why: object) -> None:
        self.counts[kind] += 1
        if not is_right:
            self.different += 1
            print(f"{name}: {why}", flush=True)

    def pass_over(self, name: str, why: str) -> None:
        self.not_made += 1
        print(f"{name} isn't compared: {why}", flush=True)


def shown(answer: Answer) -> str:
    return f"status {answer.status}, output {answer.output[:200]!r}, complaint {answer.complaint[:200]!r}"


# -------------------------------------------------------------------------------------------------------- the examples


def clocks_of(example: Example) -> dict[str, int]:
    """The clocks that the network of an example takes under each policy, as far as they are known."""
    return {policy: int(number) for policy, number in re.findall(r"(?m)^(\w+) (\d+)$", example.bytes_of(".clocks").decode())}


def check_example(program: str, example: Example, tally: Tally) -> None:
    """Compares all commands on one example."""
    name, bundle, items = example.name, example.bundle, example.items
    for command in ("run", "seq"):
        tally.compare(command, f"{name} by {command}", run(program, [command, *items], bundle), Answer(0, example.answer, b""))
    fault = sources_fault(program, example.source, items)
    tally.judge("deps", f"{name} by deps", fault is None, fault)
    clocks = clocks_of(example)
    for policy in POLICIES:
        words, about = ["--policy", policy, *items], f"under {policy}"
        if policy in clocks:
            wanted = Answer(0, example.answer + b"clocks %d\n" % clocks[policy], b"")
            tally.compare("sim", f"{name} by sim {about}", run(program, ["sim", *words], bundle), wanted)
        else:
            tally.pass_over(f"{name} by sim {about}", f"{name}.clocks has no line for it")
        check_network(program, example, words, about, clocks.get(policy), tally)


def check_network(program: str, example: Example, words: list[str], about: str, clocks: int | None, tally: Tally) -> None:
    """Compares the commands that tell the network of an example under a policy."""
    name, source = example.name, example.source
    cert = run(program, ["cert", *words], source)
    swept = meaning.swept(cert.output)
    told = meaning.outcome(["check", *words], bundled(source, b"\n", swept))
    tally.judge(
        "cert",
        f"{name} by cert {about}",
        told == (0, ACCEPTED.output, b"") and cert.status == 0 and not cert.complaint,
        f"{shown(cert)}: {told}",
    )
    try:
        certificate = meaning.certificate_of(swept)
    except meaning.Unread as reason:
        for command in ("check", "net", "trim", "trace", "vhdl"):
            tally.pass_over(f"{name} by {command} {about}", f"the certificate can't be read: {reason}")
        return
    for text in (cert.output, swept):
        tally.compare("check", f"{name} by check {about}", run(program, ["check", *words], bundled(source, b"\n", text)), ACCEPTED)
    for text in spoiled(swept):
        status, output, complaint = meaning.outcome(["check", *words], bundled(source, b"\n", text))
        wanted = Answer(status, output or b"", complaint)
        tally.compare("check", f"{name} by check {about}, spoiled", run(program, ["check", *words], bundled(source, b"\n", text)), wanted)
    net = run(program, ["net", *words], source)
    known = meaning.Program(source, values_of(example.items))
    tally.compare("net", f"{name} by net {about}", net, Answer(0, meaning.net_text(known, certificate), b""))
    tally.compare("trim", f"{name} by trim {about}", run(program, ["trim", *words], source), Answer(0, meaning.trimmed(certificate), b""))
    trace = run(program, ["trace", *words], source)
    why = trace_fault(source, words, swept, trace)
    tally.judge("trace", f"{name} by trace {about}", why is None, why)
    vhdl = run(program, ["vhdl", *words], source)
    why = vhdl_fault(example, certificate, net.output, vhdl, clocks)
    tally.judge("vhdl", f"{name} by vhdl {about}", why is None, why)


def spoiled(certificate: bytes) -> Iterator[bytes]:
    """The certificate without its end, and with a channel that holds nothing."""
    yield certificate[: -len(b"end\n")]
    less = re.sub(rb"(?m)^(channel \d+ \d+ \d+) \d+ (?=\w)", rb"\1 0 ", certificate, count=1)
    if less != certificate:
        yield less


def trace_fault(source: bytes, words: list[str], certificate: bytes, trace: Answer) -> str | None:
    """What is wrong with a run that `trace` told: it is complete, and may stand as the schedule of the certificate."""
    lines = trace.output.split(b"\n")
    if trace.status or trace.complaint or lines[0] != b"trace 1" or lines[-2:] != [b"end", b""]:
        return shown(trace)
    text = meaning.with_schedule(certificate, lines[1:-2])
    told = meaning.outcome(["check", *words], bundled(source, b"\n", text))
    return None if told == (0, ACCEPTED.output, b"") else str(told)


def script_of(node: Node) -> list[meaning.Event]:
    """The events of a node as a certificate's script has them."""
    found: list[meaning.Event] = []
    for op, arg, dst in zip(node.op[:-1], node.arg, node.dst):
        if op == GET:
            found.append(("g", arg, dst))
        elif op == PUT:
            found.append(("p", arg))
        else:
            slots = [values[arg] for values in node.reads]
            found.append(("f", [b"z" if it < 0 else it for it in slots]))
    return found


def vhdl_fault(example: Example, certificate: meaning.Certificate, net: bytes, vhdl: Answer, clocks: int | None) -> str | None:
    """What is wrong with a text of nodes."""
    if vhdl.status or vhdl.complaint:
        return shown(vhdl)
    try:
        network = read_net(net.decode())
        nodes = read_nodes(network, vhdl.output.decode())
        for number, (node, (slots, script)) in enumerate(zip(nodes, certificate[0], strict=True)):
            if (node.slots, script_of(node)) != (slots, script):
                return f"node_{number} has another script than the certificate"
        arrays, took = run_nodes(network, nodes, dict(read_arrays(example.data.decode())))
    except (Unfit, ValueError, LookupError) as error:
        return str(error)
    answer = "".join(",".join([name, *map(str, values)]) + "\n" for name, values in arrays.items()).encode()
    if answer != example.answer:
        return f"the nodes give {answer[:200]!r}"
    return None if clocks in (None, took) else f"the nodes take {took} clocks for {clocks}"


# ------------------------------------------------------------------------------------------------------- inputs of bad form


@dataclass(frozen=True)
class Case:
    """A call of the program, and what it is wanted to come to."""

    name: str
    words: list[str]
    bundle: bytes
    wanted: Answer


def answered(name: str, words: str, bundle: bytes, output: bytes) -> Case:
    return Case(name, words.split(), bundle, Answer(0, output, b""))


def refused(name: str, words: str, bundle: bytes, status: int, complaint: str) -> Case:
    return Case(name, words.split(), bundle, Answer(status, b"", complaint.encode() + b"\n"))


INCREMENT = b"param N; in x[N]; out y[N]; for (i = 0; i < N; i++) y[i] = x[i] + 1;"
TWO_PLACES = b"param N; in a[N]; out c[N]; var b[N]; for (i = 0; i < N; i++) b[i] = a[i]; for (i = 0; i < N; i++) c[i] = a[i] + b[N-1];"
SUMS = b"param N; in x[N]; out s[N]; for (i = 0; i < N; i++) s[i] = s[i - 1] + x[i];"
BY_POINTS = (
    b"param N; out y[N]; var a[9]; for (i = 0; i < N; i++) for (j = 0; j < N; j++) a[i + j] = i; "
    b"for (i = 0; i < N; i++) y[i] = a[i + 1];"
)
SCALAR = b"param N; var a; for (i = 0; i < N; i++) a = i;"
BY_STEP = b"param K; var a; for (i = 0; i < 2147483647; i += K) a = i;"

NETWORK = b"""net 1
process 0 source x fires 3 slots 0
process 1 assign y fires 3 slots 1
process 2 sink y fires 3 slots 1
channel 0 from 0 to 1 read 0 tokens 3 capacity 3 hold 1 class inorder
channel 1 from 1 to 2 read 0 tokens 3 capacity 3 hold 1 class inorder
events 21
end
"""
LEAST = b"trim 1\nchannel 0 capacity 1 rest 1 0 0\nchannel 1 capacity 1 rest 5 2 0\nend\n"
TWO_LEAST = b"""trim 1
channel 0 capacity 1 rest 1 0 0 0
channel 1 capacity 2 rest 8 6 1 0
channel 2 capacity 1 rest 11 8 1 0
channel 3 capacity 1 rest 11 9 3 0
end
"""
TREES = b"deps 1\nread 1 0\ntree\nt -1 1\nw 1 1\nm -1 1\nz\nread 1 1\ntree\nw 0 1\nm 0 1\nread 2 0\ntree\nw 1 1\nm 0 1\nend\n"
POINTS = b"deps 1\nread 1 0\npoints 3\n(0) 0(1,0)\n(1) 0(2,0)\n(2) 0(2,1)\nread 2 0\ntree\nw 1 1\nm 0 1\nend\n"
LOAD = b"points 24\nchannels 5\nevents 64\nsum 9\n"


def cases() -> Iterator[Case]:
    """Small sources by each command, texts of bad form, deep texts and sizes at their limits."""
    running_sum = (EXAMPLES / "running_sum.loop").read_bytes()
    yield answered("a network", "net N=3", INCREMENT, NETWORK)
    yield answered("no channels", "trim N=0", INCREMENT, b"trim 1\nend\n")
    for policy in POLICIES:
        yield answered(f"least capacities by {policy}", f"trim N=3 --policy {policy}", INCREMENT, LEAST)
        yield answered(f"a channel that needs two places, by {policy}", f"trim N=4 --policy {policy}", TWO_PLACES, TWO_LEAST)
    yield answered("sources at any size", "deps N=1000000000", SUMS, TREES)
    yield answered("sources by points", "deps N=3", BY_POINTS, POINTS)
    yield refused("too many points", "deps N=1000000000", BY_POINTS, 8, "limit: Size 8388609")
    yield answered("a product of matrices", "load 2", b"", LOAD)
    yield answered("a product of empty matrices", "load 0", b"", b"points 0\nchannels 0\nevents 0\nsum 0\n")
    yield refused("a product that is too large", "load 160", b"", 8, "limit: Size 8388609")

    yield answered("an empty source", "run", b"", b"")
    yield refused("a binary file", "run", b"\0\1\2\377", 6, "text: BadByte 0")
    yield refused("a cut source", "run N=4", b"param N; out y[N]; for (i = 0; i < N; i+", 6, "text: Syntax 39")
    yield refused("an open comment", "run", b"var a; /* open", 6, "text: OpenComment 7")
    yield refused("no value for a parameter", "run", running_sum, 7, f"class: Unbound {running_sum.index(b'N;')}")
    for name, words in (("no words", ""), ("an item without a value", "run N"), ("a name twice", "run N=1 N=2"), ("an option", "run -x"),
                        ("help", "--help"), ("an unknown command", "walk"), ("a word behind load's number", "load 2 N=3")):  # fmt: skip
        yield refused(name, words, b"", 2, USAGE.rstrip("\n"))

    # deep sources: an answer or a named refusal, and never a crash
    yield refused("8,190 (", "run", b"(" * 8190, 6, "text: Syntax 0")
    yield refused("8,000 ( in a right side", "run", b"var a; a = " + b"(" * 8000, 6, "text: Syntax 8011")
    yield answered("8,182 -", "run", b"out a; a = " + b"-" * 8182 + b"1;", b"a,1\n")
    yield answered("8,000 - in a subscript", "run", b"out a[1]; a[" + b"-" * 8000 + b"0] = 7;", b"a,7\n")
    yield refused("8,192 {", "run", b"{" * 8192, 6, "text: Syntax 8192")
    yield answered("4,000 nested blocks", "run", b"{" * 4000 + b"}" * 4000, b"")
    yield answered("a sum of 4,000 terms", "run", b"out a; a = 1" + b"+1" * 3999 + b";", b"a,4000\n")
    yield answered("a subscript of 4,000 terms", "run", b"out a[1]; a[0" + b"+0" * 3999 + b"] = 5;", b"a,5\n")
    yield refused("1,360 nested guards", "run", b"out a; " + b"if(1<2)" * 1360 + b"a = 3;", 8, "limit: TooManyRows 9527")
    guards = b"for (i = 0; i < 3; i++) " + b"if(i<2)" * 1300 + b"{}"
    yield answered("1,300 nested guards round nothing", "run", guards, b"")
    yield answered("1,300 nested guards round nothing by seq", "seq", guards, b"")
    yield refused("4,000 open blocks in a loop", "seq", b"for (i = 0; i < 3; i++) " + b"{" * 4000 + b";", 6, "text: Syntax 4024")
    yield answered("2,000 nested max", "run", b"out a; a = " + b"max(" * 2000 + b"4" + b")" * 2000 + b";", b"a,4\n")
    yield refused("2,700 open subscripts", "run", b"var a[1]; a[" + b"a[" * 2700, 6, "text: Syntax 5412")

    # the size's limit
    yield answered("the greatest size", "run N=4194304", SCALAR, b"")
    yield refused("one turn too many", "run N=4194305", SCALAR, 8, "limit: Size 8388609")
    yield answered("the greatest size, by a step", "run K=512", BY_STEP, b"")
    yield refused("a step that is too small for it", "run K=511", BY_STEP, 8, "limit: Size 8388609")
    yield refused("no step", "run K=0", BY_STEP, 7, "class: StepRange 46")


def with_closed_output(program: str, words: list[str], bundle: bytes) -> Answer:
    """Runs the program with its standard output closed."""
    done = subprocess.run(["sh", "-c", 'exec "$@" >&-', "sh", program, *words], input=bundle, stderr=subprocess.PIPE, check=False)
    return Answer(done.returncode, b"", done.stderr)


def main() -> int:
    parser = parser_of(__doc__)
    parser.add_argument("names", metavar="EXAMPLE", nargs="*")
    given = parser.parse_args()
    program, tally = program_of(given.compaan), Tally()
    for example in examples(given.names):
        check_example(program, example, tally)
    if not given.names:
        for it in cases():
            tally.compare("bad form and limits", it.name, run(program, it.words, it.bundle), it.wanted)
        closed = with_closed_output(program, ["run", "N=4"], (EXAMPLES / "running_sum.loop").read_bytes())
        tally.compare("bad form and limits", "a closed output", closed, Answer(4, b"", b""))
    said = ", ".join(f"{count} of {kind}" for kind, count in tally.counts.items())
    print(f"{sum(tally.counts.values())} compared ({said}), {tally.different} different, {tally.not_made} not made")
    return 1 if tally.different or tally.not_made or not tally.counts else 0


if __name__ == "__main__":
    sys.exit(main())
