#!/usr/bin/env python3
"""Makes the wiring and the test bench of a network, from the texts that `compaan net` and `compaan vhdl` write.

usage: tools/hardware/wiring.py NET VHDL FOLDER [--data FILE] [--answer FILE]

Writes FOLDER/network.vhd, an entity `network` that joins all nodes by channels (hardware/channel.vhd). With the
answer that is wanted, and the data where the program reads any, it also writes FOLDER/bench.vhd, a test bench for it.
"""
from __future__ import annotations

import csv
import os
import re
import sys
from pathlib import Path
from typing import NamedTuple

sys.path.insert(0, str(Path(__file__).resolve().parents[1]))
from common import plain_parser_of, stop


class Process(NamedTuple):
    number: int
    kind: str
    array: str
    fires: int


class Channel(NamedTuple):
    number: int
    writer: int
    reader: int
    capacity: int


class Network(NamedTuple):
    processes: list[Process]
    channels: list[Channel]
    events: int


class Port(NamedTuple):
    name: str
    direction: str
    type: str


class Node(NamedTuple):
    """An entity of the VHDL text: its ports, and how many events its script has."""

    ports: list[Port]
    events: int


# Arrays by name, in the order of their text.
Arrays = list[tuple[str, list[int]]]

BIT = "std_logic"
WORD = "signed(63 downto 0)"


class Unfit(Exception):
    """A text isn't what is expected, or two of them disagree."""


class TooLong(Unfit):
    """A tool took more time than it may."""


# The texts of the program

PROCESS = re.compile(r"process (\d+) (source|assign|sink) (\w+) fires (\d+) slots \d+")
CHANNEL = re.compile(r"channel (\d+) from (\d+) to (\d+) read \d+ tokens \d+ capacity (\d+) hold \d+ class \S+")
EVENTS = re.compile(r"events (\d+)")


def read_net(text: str) -> Network:
    """The network that a text of `compaan net` tells."""
    lines = text.splitlines()
    if len(lines) < 3 or lines[0] != "net 1" or lines[-1] != "end" or not EVENTS.fullmatch(lines[-2]):
        raise Unfit("the network's text doesn't begin with `net 1`, or doesn't end with its events and `end`")
    processes = []
    channels = []
    for line in lines[1:-2]:
        process = PROCESS.fullmatch(line)
        channel = CHANNEL.fullmatch(line)
        if process and int(process[1]) == len(processes) and not channels:
            processes.append(Process(int(process[1]), process[2], process[3], int(process[4])))
        elif channel and int(channel[1]) == len(channels):
            channels.append(Channel(*map(int, channel.groups())))
        else:
            raise Unfit("the network's text has the line `%s` where another is expected" % line)
    if any(c.writer >= len(processes) or c.reader >= len(processes) or c.capacity < 1 for c in channels):
        raise Unfit("the network's text has a channel without room, or one of a process that isn't there")
    return Network(processes, channels, int(EVENTS.fullmatch(lines[-2])[1]))


def read_vhdl(text: str) -> tuple[list[Node], list[Channel]]:
    """The nodes of a text of `compaan vhdl`, in order, and the channels that its head tells of."""
    if not text.startswith("-- compaan vhdl 1\n"):
        raise Unfit("the VHDL text doesn't begin with `-- compaan vhdl 1`")
    told = re.findall(r"^-- channel (\d+) node_(\d+) node_(\d+) capacity (\d+)$", text, re.M)
    nodes = []
    for part in re.split(r"^entity ", text, flags=re.M)[1:]:
        head = re.match(r"node_(\d+) is\n  port \(\n((?:    .*\n)*)  \);\nend entity;\n", part)
        counter = re.search(r"^  signal pc : integer range 0 to (\d+) := 0;$", part, re.M)
        ports = [re.fullmatch(r"    (\w+) : (in|out) (.*?);?", line) for line in head[2].splitlines()] if head else []
        if not head or int(head[1]) != len(nodes) or not counter or None in ports:
            raise Unfit("entity %d of the VHDL text doesn't have the form of a node" % len(nodes))
        nodes.append(Node([Port(*it.groups()) for it in ports if it], int(counter[1])))
    return nodes, [Channel(*map(int, numbers)) for numbers in told]


def ports_of(process: Process, channels: list[Channel]) -> list[Port]:
    """The ports that the node of a process is to have."""
    ports = [Port("clk", "in", BIT), Port("rst", "in", BIT)]
    if process.kind == "source":
        ports += [Port("given", "in", WORD), Port("given_take", "out", BIT)]
    if process.kind == "sink":
        ports += [Port("result", "out", WORD), Port("result_give", "out", BIT)]
    for c in channels:
        if c.reader == process.number:
            data = "in" if c.writer == process.number else "data"
            ports.append(Port("c%d_valid" % c.number, "in", BIT))
            ports.append(Port("c%d_%s" % (c.number, data), "in", WORD))
            ports.append(Port("c%d_take" % c.number, "out", BIT))
    for c in channels:
        if c.writer == process.number:
            ports.append(Port("c%d_ready" % c.number, "in", BIT))
            ports.append(Port("c%d_data" % c.number, "out", WORD))
            ports.append(Port("c%d_give" % c.number, "out", BIT))
    return ports + [Port("done", "out", BIT)]


def read_texts(net: str, vhdl: str) -> tuple[Network, list[Node]]:
    """The network that both texts tell, and its nodes. They are refused where they disagree."""
    network = read_net(net)
    nodes, channels = read_vhdl(vhdl)
    if channels != network.channels:
        raise Unfit("the two texts disagree on the channels")
    if len(nodes) != len(network.processes):
        raise Unfit("the two texts disagree on the number of processes")
    for process, node in zip(network.processes, nodes):
        if node.ports != ports_of(process, network.channels):
            raise Unfit("node_%d doesn't have the ports that the network's text asks for" % process.number)
    if sum(node.events for node in nodes) != network.events:
        raise Unfit("the two texts disagree on the number of events")
    return network, nodes


def read_arrays(text: str) -> Arrays:
    """The arrays of a text of data or of an answer, in its order: pairs of a name and a list of values."""
    arrays: Arrays = []
    for record in filter(None, csv.reader(text.splitlines())):
        name, *values = [field.strip(" \t") for field in record]
        if not all(re.fullmatch(r"-?\d+", value) for value in values):
            raise Unfit("array %s has a value that is no number" % name)
        numbers = [int(value) for value in values]
        if not all(-(2**63) <= number < 2**63 for number in numbers):
            raise Unfit("array %s has a value that 64 bits don't hold" % name)
        arrays.append((name, numbers))
    return arrays


# The wiring

HEAD = """library ieee;
use ieee.std_logic_1164.all;
use ieee.numeric_std.all;
"""

NETWORK = """-- The nodes of a network, joined by its channels. Made by tools/hardware/wiring.py.

{head}
entity network is
  port (
    clk : in std_logic;
    rst : in std_logic;
{ports}    -- every node is at its script's end
    done : out std_logic
  );
end entity;

architecture wiring of network is
{signals}begin
{parts}  done <= {done};
end architecture;
"""

WIRES = """  -- from node_{c.writer} to node_{c.reader}
  signal c{c.number}_ready, c{c.number}_give, c{c.number}_valid, c{c.number}_take : std_logic;
  signal c{c.number}_data, c{c.number}_front : signed(63 downto 0);
"""

NODE = """  node_{number} : entity work.node_{number}
    port map (
{joins}
    );
"""

CHANNEL_PART = """  channel_{c.number} : entity work.channel
    generic map (
      capacity => {c.capacity}
    )
    port map (
      clk => clk,
      rst => rst,
      ready => c{c.number}_ready,
      give => c{c.number}_give,
      data => c{c.number}_data,
      valid => c{c.number}_valid,
      take => c{c.number}_take,
      front => c{c.number}_front
    );
"""


def outer_ports(process: Process) -> list[Port]:
    """The ports of the whole network that lead to the node of a process."""
    number = process.number
    if process.kind == "source":
        return [Port("given_%d" % number, "in", WORD), Port("given_take_%d" % number, "out", BIT)]
    if process.kind == "sink":
        return [Port("result_%d" % number, "out", WORD), Port("result_give_%d" % number, "out", BIT)]
    return []


def wire_of(port: Port, process: Process) -> str:
    """What a port of a process's node is joined to: a port of the whole network, or a signal."""
    if port.name in ("clk", "rst"):
        return port.name
    if port.name in ("given", "given_take", "result", "result_give", "done"):
        return "%s_%d" % (port.name, process.number)
    channel, part = port.name.split("_")
    return channel + "_front" if (port.direction, port.type) == ("in", WORD) else channel + "_" + part


def wiring_text(network: Network, nodes: list[Node]) -> str:
    """The entity `network`."""
    ports = ""
    parts = ""
    for process, node in zip(network.processes, nodes):
        if process.kind != "assign":
            way = "to" if process.kind == "source" else "from"
            ports += "    -- array %s, %s node_%d\n" % (process.array, way, process.number)
            ports += "".join("    %s : %s %s;\n" % port for port in outer_ports(process))
        joins = ",\n".join("      %s => %s" % (port.name, wire_of(port, process)) for port in node.ports)
        parts += NODE.format(number=process.number, joins=joins)
    parts += "".join(CHANNEL_PART.format(c=channel) for channel in network.channels)
    ends = ["done_%d" % process.number for process in network.processes]
    signals = "".join(WIRES.format(c=channel) for channel in network.channels)
    signals += "".join("  signal %s : std_logic;\n" % end for end in ends)
    return NETWORK.format(head=HEAD, ports=ports, signals=signals, parts=parts, done=" and ".join(ends) or "'1'")


# The test bench

BENCH = """-- A test bench for a network, with the values that it is given and wanted to give. Made by tools/hardware/wiring.py.
--
-- It writes lines on the simulator's standard output: one for each value that isn't as wanted, and last `equal clocks T`,
-- `different clocks T` or `stuck clocks T`. T counts the rising edges at which not every node was done, from the end of the
-- last reset on. Then the simulation ends by itself.

{head}use std.textio.all;

entity bench is
  generic (
    -- the network is first run for so many clocks and then reset, where this isn't 0
    cut : natural := {cut}
  );
end entity;

architecture simulation of bench is
  type words is array (natural range <>) of signed(63 downto 0);
  -- The number of the network's events. As long as one of them can come, one comes at each clock. So a network that isn't
  -- done after so many clocks never will be.
  constant most_clocks : natural := {events};
{values}{signals}  signal clk : std_logic := '0';
  signal rst : std_logic := '1';
  signal done : std_logic;
  signal over : boolean := false;

  procedure tell(what : string) is
    variable said : line;
  begin
    write(said, what);
    writeline(output, said);
  end procedure;

  function hexadecimal(value : signed(63 downto 0)) return string is
    constant digits : string(1 to 16) := "0123456789abcdef";
    variable four : std_logic_vector(3 downto 0);
    variable answer : string(1 to 16);
  begin
    for place in answer'range loop
      four := std_logic_vector(value(67 - 4 * place downto 64 - 4 * place));
      if is_x(four) then
        answer(place) := 'X';
      else
        answer(place) := digits(to_integer(unsigned(four)) + 1);
      end if;
    end loop;
    return answer;
  end function;

  -- the next value of an array came: number `place` of those wanted, behind which one is spare
  procedure judge(name : string; value : signed; wanted : words; place : inout natural; same : inout boolean) is
  begin
    if place = wanted'high then
      tell("more of " & name & ": " & hexadecimal(value));
      same := false;
    else
      if hexadecimal(value) /= hexadecimal(wanted(place)) then
        tell("value " & integer'image(place) & " of " & name & ": " & hexadecimal(value)
          & " for " & hexadecimal(wanted(place)));
        same := false;
      end if;
      place := place + 1;
    end if;
  end procedure;
begin
  whole : entity work.network
    port map (
{joins}
    );
{feeds}
  clock : process
  begin
    while not over loop
      clk <= '0';
      wait for 5 ns;
      clk <= '1';
      wait for 5 ns;
    end loop;
    wait;
  end process;

  -- two edges with `rst` high, and the same again once the first run is cut off
  reset : process
  begin
    for run in 1 to 2 loop
      rst <= '1';
      wait until rising_edge(clk);
      wait until rising_edge(clk);
      rst <= '0';
      exit when cut = 0;
      for edge in 1 to cut loop
        wait until rising_edge(clk);
      end loop;
    end loop;
    wait;
  end process;

  -- moves the sources on, judges the results, counts the clocks and ends the simulation
  watch : process (clk)
    variable clocks : natural := 0;
    variable edges_done : natural := 0;
    variable same : boolean := true;
{places}  begin
    if rising_edge(clk) and not over then
      if rst = '1' then
        clocks := 0;
        edges_done := 0;
{anew}      else
{steps}        if done = '1' then
          edges_done := edges_done + 1;
        else
          clocks := clocks + 1;
        end if;
        -- the last results come at the first edge at which all are done, and no more at later ones
        if edges_done = 4 then
          over <= true;
          if {all_came} then
            tell("equal clocks " & integer'image(clocks));
          else
{lacks}            tell("different clocks " & integer'image(clocks));
          end if;
        elsif clocks > most_clocks then
          over <= true;
          tell("stuck clocks " & integer'image(most_clocks));
        end if;
      end if;
    end if;
  end process;
end architecture;
"""

SOURCE_VALUES = """  -- what node_{p.number} is given, the values of array {p.array}
  constant values_{p.number} : words(0 to {last}) := ({words});
  signal next_{p.number} : natural range 0 to {last} := 0;
"""

SINK_VALUES = """  -- what is wanted of node_{p.number}, the values of array {p.array}
  constant wanted_{p.number} : words(0 to {last}) := ({words});
"""

SOURCE_STEP = """        if given_take_{p.number} = '1' then
          if next_{p.number} = values_{p.number}'high then
            tell("node_{p.number} takes more than the values of {p.array}");
            same := false;
          else
            next_{p.number} <= next_{p.number} + 1;
          end if;
        end if;
"""

SINK_STEP = """        if result_give_{p.number} = '1' then
          judge("{p.array}", result_{p.number}, wanted_{p.number}, place_{p.number}, same);
        end if;
"""

SOURCE_LACK = """            if next_{p.number} /= values_{p.number}'high then
              tell("node_{p.number} takes only " & integer'image(next_{p.number}) & " values of {p.array}");
            end if;
"""

SINK_LACK = """            if place_{p.number} /= wanted_{p.number}'high then
              tell("only " & integer'image(place_{p.number}) & " values of {p.array}");
            end if;
"""


def words_of(values: list[int]) -> str:
    """The values as the entries of an aggregate, and a zero behind the last."""
    return ", ".join('%d => x"%016x"' % (at, value % 2**64) for at, value in enumerate(values + [0]))


def bench_text(network: Network, nodes: list[Node], data: Arrays, answer: Arrays) -> str:
    """A test bench that gives the arrays of the data, and judges by those of the answer."""
    sources = [p for p in network.processes if p.kind == "source"]
    sinks = [p for p in network.processes if p.kind == "sink"]
    names_given, names_read = [name for name, _ in data], [p.array for p in sources]
    if sorted(names_given) != sorted(names_read):
        raise Unfit("the data has the arrays %s, and the program reads %s" % (names_given, names_read))
    names_wanted, names_written = [name for name, _ in answer], [p.array for p in sinks]
    if names_wanted != names_written:
        raise Unfit("the answer has the arrays %s, and the program writes %s" % (names_wanted, names_written))
    given = dict(data)
    for p in sources:
        if len(given[p.array]) != p.fires:
            raise Unfit("the data has %d values of array %s, which has %d" % (len(given[p.array]), p.array, p.fires))

    values = "".join(SOURCE_VALUES.format(p=p, last=p.fires, words=words_of(given[p.array])) for p in sources)
    for p, (_, wanted) in zip(sinks, answer):
        values += SINK_VALUES.format(p=p, last=len(wanted), words=words_of(wanted))
    outer = [port for p in network.processes for port in outer_ports(p)]
    names = ["clk", "rst"] + [port.name for port in outer] + ["done"]
    all_came = ["same"] + ["next_%d = values_%d'high" % (p.number, p.number) for p in sources]
    all_came += ["place_%d = wanted_%d'high" % (p.number, p.number) for p in sinks]
    return BENCH.format(
        head=HEAD,
        # half way through the longest script, so that its node can't be done yet
        cut=max((node.events for node in nodes), default=0) // 2,
        events=network.events,
        values=values,
        signals="".join("  signal %s : %s;\n" % (port.name, port.type) for port in outer),
        joins=",\n".join("      %s => %s" % (name, name) for name in names),
        feeds="".join("  given_%d <= values_%d(next_%d);\n" % ((p.number,) * 3) for p in sources),
        places="".join("    variable place_%d : natural := 0;\n" % p.number for p in sinks),
        anew="".join("        next_%d <= 0;\n" % p.number for p in sources) + "".join("        place_%d := 0;\n" % p.number for p in sinks),
        steps="".join(SOURCE_STEP.format(p=p) for p in sources) + "".join(SINK_STEP.format(p=p) for p in sinks),
        all_came=" and ".join(all_came),
        lacks="".join(SOURCE_LACK.format(p=p) for p in sources) + "".join(SINK_LACK.format(p=p) for p in sinks),
    )


def read_file(path: str | os.PathLike[str]) -> str:
    """The bytes of a file as characters: a source's comments may hold any."""
    with open(path, encoding="latin-1", newline="") as file:
        return file.read()


def write_file(folder: str | os.PathLike[str], name: str, text: str) -> None:
    with open(os.path.join(folder, name), "w", encoding="latin-1", newline="") as file:
        file.write(text)


def main() -> int:
    parser = plain_parser_of(__doc__)
    parser.add_argument("net", help="a text that `compaan net` wrote")
    parser.add_argument("vhdl", help="the text that `compaan vhdl` wrote of the same network")
    parser.add_argument("folder", help="where network.vhd and bench.vhd go")
    parser.add_argument("--data", help="a file with the arrays that the program reads")
    parser.add_argument("--answer", help="a file with the arrays that are wanted; bench.vhd is made with it alone")
    words = parser.parse_args()
    try:
        network, nodes = read_texts(read_file(words.net), read_file(words.vhdl))
        write_file(words.folder, "network.vhd", wiring_text(network, nodes))
        if words.answer:
            data = read_arrays(read_file(words.data)) if words.data else []
            answer = read_arrays(read_file(words.answer))
            write_file(words.folder, "bench.vhd", bench_text(network, nodes, data, answer))
    except (OSError, Unfit) as error:
        stop(error)
    return 0


if __name__ == "__main__":
    sys.exit(main())
