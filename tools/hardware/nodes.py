"""The nodes that `compaan vhdl` writes, read whole and run in Python, clock by clock, without a simulator.

Each entity must be, letter for letter, what docs/VHDL.md says of its process, but for the constants, which are read, and the expression of a
fire, which is evaluated. So what is run here is what the text says. Channels are queues of their capacities, and a source's next value always
stands there. The clocks are the edges at which not every node was done.
"""
from __future__ import annotations

import re
from collections import deque
from collections.abc import Callable, Sequence
from dataclasses import dataclass
from types import CodeType

from hardware.wiring import Network, Process, Unfit, ports_of

GET, FIRE, PUT = 1, 2, 3
HALF = 1 << 63
CONSTANT = re.compile(r"  constant (\w+) : (codes|words)\(0 to (\d+)\) := \((.*)\);")

TEXT = """
library ieee;
use ieee.std_logic_1164.all;
use ieee.numeric_std.all;
entity node_{number} is
  port (
{ports}
  );
end entity;
architecture rtl of node_{number} is
  type codes is array (natural range <>) of integer;
  type words is array (natural range <>) of signed(63 downto 0);
  constant zero : signed(63 downto 0) := x"0000000000000000";
{constants}  signal pc : integer range 0 to {last} := 0;
  signal slot : words(0 to {slots});
  signal fired : signed(63 downto 0);
{gave}  function pick(b : words; r : integer) return signed is
  begin
    if r < 0 then
      return zero;
    else
      return b(r);
    end if;
  end function;
  function mul(a, b : signed(63 downto 0)) return signed is
    variable p : signed(127 downto 0);
  begin
    p := a * b;
    return p(63 downto 0);
  end function;
  function least(a, b : signed(63 downto 0)) return signed is
  begin
    if a < b then
      return a;
    else
      return b;
    end if;
  end function;
  function most(a, b : signed(63 downto 0)) return signed is
  begin
    if a < b then
      return b;
    else
      return a;
    end if;
  end function;
begin
{lines}  done <= '1' when op(pc) = 0 else '0';
  process (clk)
  begin
    if rising_edge(clk) then
{low}      if rst = '1' then
        pc <= 0;
      else
        case op(pc) is
          when 1 =>
{gets}          when 2 =>
            fired <= {expression};
{high}            pc <= pc + 1;
          when 3 =>
{puts}          when others =>
            null;
        end case;
      end if;
    end if;
  end process;
end architecture;
"""
# What stands in the nodes of sources and of sinks alone.
ROLE_LINES = {
    "source": "  given_take <= '1' when op(pc) = 2 else '0';\n",
    "assign": "",
    "sink": "  result <= fired;\n  result_give <= gave;\n",
}


@dataclass(frozen=True)
class Node:
    """A node: its events, where the reads of each fire find their tokens, the values of loops, and what a fire computes."""

    kind: str
    op: list[int]
    arg: list[int]
    dst: list[int]
    reads: list[list[int]]
    loops: list[list[int]]
    slots: int
    code: CodeType


def wrap(value: int) -> int:
    return (value + HALF) % (2 * HALF) - HALF


# ------------------------------------------------------------------------------------------------------------- the text


def constants_of(text: str) -> dict[str, list[int]]:
    """The constants of a node by name, in their order."""
    found: dict[str, list[int]] = {}
    for name, kind, last, entries in (it.groups() for it in CONSTANT.finditer(text)):
        values = []
        for at, entry in enumerate(entries.split(", ")):
            number, _, value = entry.partition(" => ")
            if number != str(at):
                raise Unfit(f"constant {name} has an entry {entry!r} at {at}")
            values.append(number_of(value) if kind == "words" else int(value))
        if len(values) != int(last) + 1:
            raise Unfit(f"constant {name} has {len(values)} entries for {int(last) + 1}")
        found[name] = values
    return found


def number_of(literal: str) -> int:
    """The value of a word of 16 hexadecimal digits."""
    digits = re.fullmatch('x"([0-9a-f]{16})"', literal)
    if not digits:
        raise Unfit(f"no word: {literal!r}")
    return wrap(int(digits[1], 16))


def node_text(process: Process, network: Network, constants: str, last: int, slots: str, expression: str) -> str:
    """The text of a process's node with these constants and this expression."""
    number, channels = process.number, network.channels
    ins = [it for it in channels if it.reader == number]
    outs = [it for it in channels if it.writer == number]
    role = process.kind
    lines = "".join(f"  c{it.number}_take <= '1' when op(pc) = 1 and arg(pc) = {it.number} else '0';\n" for it in ins)
    lines += "".join(
        f"  c{it.number}_data <= fired;\n  c{it.number}_give <= '1' when op(pc) = 3 and arg(pc) = {it.number} else '0';\n" for it in outs
    )
    gets = "".join(
        f"            if arg(pc) = {it.number} and c{it.number}_valid = '1' then\n"
        f"              slot(dst(pc)) <= c{it.number}_{'in' if it.writer == number else 'data'};\n              pc <= pc + 1;\n            end if;\n"
        for it in ins
    )
    puts = "".join(
        f"            if arg(pc) = {it.number} and c{it.number}_ready = '1' then\n              pc <= pc + 1;\n            end if;\n"
        for it in outs
    )
    nothing = "            null;\n"
    return TEXT.format(
        number=number,
        ports=";\n".join(f"    {it.name} : {it.direction} {it.type}" for it in ports_of(process, channels)),
        constants=constants,
        last=last,
        slots=slots,
        gave="  signal gave : std_logic := '0';\n" if role == "sink" else "",
        lines=ROLE_LINES[role] + lines,
        low="      gave <= '0';\n" if role == "sink" else "",
        high="            gave <= '1';\n" if role == "sink" else "",
        gets=gets or nothing,
        puts=puts or nothing,
        expression=expression,
    )


def read_nodes(network: Network, vhdl: str) -> list[Node]:
    """The nodes of a network, of the text that `compaan vhdl` writes. It is refused where it isn't what is expected of them."""
    parts = re.split(r"(?m)^(?=\nlibrary ieee;$)", vhdl)
    heads = "".join(f"-- channel {it.number} node_{it.writer} node_{it.reader} capacity {it.capacity}\n" for it in network.channels)
    if parts[0] != "-- compaan vhdl 1\n" + heads or len(parts) != len(network.processes) + 1:
        raise Unfit("the VHDL text has another head, or other nodes")
    return [read_node(process, network, part) for process, part in zip(network.processes, parts[1:])]


def read_node(process: Process, network: Network, text: str) -> Node:
    constants = constants_of(text)
    slots = re.search(r"(?m)^  signal slot : words\(0 to (\d+)\);$", text)
    expression = re.search(r"(?m)^            fired <= (.*);$", text)
    if not slots or not expression or "op" not in constants:
        raise Unfit(f"node_{process.number} has no form of a node")
    op, arg, dst = (constants.get(it, []) for it in ("op", "arg", "dst"))
    reads = [values for name, values in constants.items() if re.fullmatch(r"r\d+", name)]
    loops = [values for name, values in constants.items() if re.fullmatch(r"v\d+", name)]
    names = ["op", "arg", "dst", *(f"r{at}" for at in range(len(reads))), *(f"v{at}" for at in range(len(loops)))]
    written = "".join(it[0] + "\n" for it in CONSTANT.finditer(text))
    if text != node_text(process, network, written, len(op) - 1, slots[1], expression[1]) or list(constants) != names:
        raise Unfit(f"node_{process.number} isn't the text of such a node")
    fires = op.count(FIRE)
    are_fit = len(arg) == len(dst) == len(op) and all(len(it) == fires + 1 for it in [*reads, *loops])
    ends = [op[-1], arg[-1], dst[-1], *(it[-1] for it in loops)] + [it[-1] + 1 for it in reads]
    if not are_fit or any(ends) or not set(op[:-1]) <= {GET, FIRE, PUT}:
        raise Unfit(f"node_{process.number} has constants of other lengths or ends")
    numbers = [number for number, it in zip(arg, op) if it == FIRE]
    if numbers != list(range(fires)) or any(slot for slot, it in zip(dst, op) if it != GET):
        raise Unfit(f"node_{process.number} has fires of other numbers, or slots where there is no Get")
    return Node(process.kind, op, arg, dst, reads, loops, int(slots[1]), code_of(expression[1]))


def code_of(expression: str) -> CodeType:
    """An expression as a function of Python, over the slots, the number of the fire and what is given."""
    text = re.sub(r"pick\(slot, r(\d+)\(arg\(pc\)\)\)", r"read(\1)", expression)
    text = re.sub(r"signed'\((x\"[0-9a-f]{16}\")\)", lambda it: str(number_of(it[1])), text)
    text = re.sub(r"\bv(\d+)\(arg\(pc\)\)", r"loop(\1)", text)
    text = re.sub(r"\bzero\b", "0", text)
    if not re.fullmatch(r"(?:read|loop|mul|least|most|given|\d+|[-+(), ])*", text):
        raise Unfit(f"no expression: {expression[:200]}")
    try:
        return compile(text, "expression", "eval")
    except SyntaxError:
        raise Unfit(f"no expression: {expression[:200]}") from None


FUNCTIONS: dict[str, Callable[[int, int], int]] = {
    "mul": lambda a, b: wrap(a * b),
    "least": lambda a, b: min(wrap(a), wrap(b)),
    "most": lambda a, b: max(wrap(a), wrap(b)),
}


# -------------------------------------------------------------------------------------------------------------- the run


class Running:
    """A node at its work."""

    def __init__(self, node: Node, given: Sequence[int]) -> None:
        self.node, self.given = node, deque(given)
        self.pc, self.fired = 0, 0
        self.slots = [0] * (node.slots + 1)
        self.results: list[int] = []

    @property
    def is_done(self) -> bool:
        return self.node.op[self.pc] == 0

    def fire(self) -> None:
        """Computes the value of this fire. A source takes the value that stands there, and a sink gives its own."""
        node, number = self.node, self.node.arg[self.pc]
        if node.kind == "source" and not self.given:
            raise Unfit("a source takes more values than it is given")

        def read(at: int) -> int:
            place = node.reads[at][number]
            return self.slots[place] if place >= 0 else 0

        known = {"read": read, "loop": lambda at: node.loops[at][number], "given": self.given[0] if self.given else 0}
        self.fired = wrap(eval(node.code, {"__builtins__": {}, **FUNCTIONS}, known))  # noqa: S307
        if node.kind == "source":
            self.given.popleft()
        if node.kind == "sink":
            self.results.append(self.fired)


def run_nodes(network: Network, nodes: Sequence[Node], given: dict[str, list[int]]) -> tuple[dict[str, list[int]], int]:
    """The arrays that come out of a network and the clocks that it takes, where the sources are given these values."""
    running = [Running(node, given[it.array] if it.kind == "source" else []) for it, node in zip(network.processes, nodes)]
    queues: list[deque[int]] = [deque() for _ in network.channels]
    clocks = 0
    while not all(it.is_done for it in running):
        before = [len(it) for it in queues]
        moved = False
        for it in running:
            op, arg = it.node.op[it.pc], it.node.arg[it.pc]
            if op == GET and before[arg]:
                it.slots[it.node.dst[it.pc]] = queues[arg].popleft()
            elif op == PUT and before[arg] < network.channels[arg].capacity:
                queues[arg].append(it.fired)
            elif op == FIRE:
                it.fire()
            else:
                continue
            it.pc += 1
            moved = True
        if not moved:
            raise Unfit(f"stuck after {clocks} clocks")
        clocks += 1
    if any(queues) or any(it.given for it in running):
        raise Unfit("tokens or given values are left")
    results = {it.array: one.results for it, one in zip(network.processes, running) if it.kind == "sink"}
    return results, clocks
