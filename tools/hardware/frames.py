"""The test bench of a whole design, which gives it some frames of data and judges what comes of each."""
from __future__ import annotations

import re
from collections.abc import Iterator, Sequence
from pathlib import Path
from typing import NamedTuple

from common import Example, bundled
from hardware import harness
from hardware.harness import Outcome
from hardware.wiring import HEAD, Arrays, Unfit, read_arrays, read_net


class Stream(NamedTuple):
    """The three ports of an array: its data, whether it is there, and whether it is taken."""

    array: str
    is_source: bool
    data: str
    valid: str
    ready: str


class Frames(NamedTuple):
    """A design with the data and the answer of some frames: its text, how many events its network has in a frame, the clocks of one that
    `compaan sim` counts and those that `compaan rtl --clocks` tells, and the frames. Where each port has a control of its own `compaan sim`
    counts none."""

    design: str
    events: int
    clocks: int | None
    told: int
    frames: Sequence[tuple[Arrays, Arrays]]


class Run(NamedTuple):
    """How many frames are simulated one after the other, and whether the ports stall."""

    frames: int
    stalls: bool

    def __str__(self) -> str:
        return f"{self.frames} frame{'s' * (self.frames > 1)}{' with stalls' * self.stalls}"


BENCH = """-- A test bench for a design, with the values of some frames in files. Made by hardware/frames.
--
-- It writes lines on the simulator's standard output: one for each value that isn't as wanted, and last `equal clocks T`,
-- `different clocks T` or `stuck clocks T`. Of one frame T counts the rising edges at which not every node was done, of several those
-- until the last result came. Then the simulation ends by itself.

{head}use std.textio.all;

entity bench is end entity;

architecture simulation of bench is
  constant most_clocks : natural := {most};
{values}  signal clk : std_logic := '0';
  signal rst : std_logic := '1';
  signal again : std_logic := '{again}';
  signal done : std_logic;
  signal chance : std_logic_vector(31 downto 0) := x"2545f491";
  signal over : boolean := false;

  procedure tell(what : string) is
    variable said : line;
  begin
    write(said, what);
    writeline(output, said);
  end procedure;

  function bits(digit : character) return signed is
    variable number : natural;
  begin
    if digit <= '9' then
      number := character'pos(digit) - character'pos('0');
    else
      number := character'pos(digit) - character'pos('a') + 10;
    end if;
    return signed(to_unsigned(number, 4));
  end function;

  -- the next value of a file, which has 16 hexadecimal digits in a line for each
  procedure read_value(file lines : text; value : out signed(63 downto 0)) is
    variable given : line;
    variable digits : string(1 to 16);
  begin
    readline(lines, given);
    read(given, digits);
    for place in digits'range loop
      value(67 - 4 * place downto 64 - 4 * place) := bits(digits(place));
    end loop;
  end procedure;
begin
  whole : entity work.network
    port map (
{joins}
    );
{feeds}
  clock : process
  begin
    while not over loop
      clk <= '0';
      wait for 5 ns;
      clk <= '1';
      wait for 5 ns;
    end loop;
    wait;
  end process;

  reset : process
  begin
    wait until rising_edge(clk);
    wait until rising_edge(clk);
    rst <= '0';
    wait;
  end process;

  watch : process (clk)
    variable clocks : natural := 0;
    variable edges_over : natural := 0;
    variable same : boolean := true;
    variable is_begun : boolean := false;
    variable value : signed(63 downto 0);
  begin
    if not is_begun then
      is_begun := true;
{starts}    elsif rising_edge(clk) and not over then
      chance <= chance(30 downto 0) & (chance(31) xor chance(21) xor chance(1) xor chance(0));
      if rst = '0' then
{steps}        if {is_over} then
          edges_over := edges_over + 1;
        else
          clocks := clocks + 1;
        end if;
        if edges_over = 8 then
          over <= true;
          if {all_came} then
            tell("equal clocks " & integer'image(clocks));
          else
            tell("different clocks " & integer'image(clocks));
          end if;
        elsif clocks > most_clocks then
          over <= true;
          tell("stuck clocks " & integer'image(most_clocks));
        end if;
      end if;
    end if;
  end process;
end architecture;
"""

VALUES = """  -- the values of array {s.array}, frame after frame
  file values_{at} : text open read_mode is "values_{at}.txt";
  signal next_{at} : natural range 0 to {last} := 0;
  signal data_{at} : signed(63 downto 0);
  signal valid_{at} : std_logic{valid};
  signal ready_{at} : std_logic{ready};
"""

SOURCE_VALUE = "  signal given_{at} : signed(63 downto 0);\n"

SOURCE_FEED = "  data_{at} <= given_{at} when valid_{at} = '1' else (others => 'X');\n"

SOURCE_START = """      read_value(values_{at}, value);
      given_{at} <= value;
"""

# A value that is offered stands there until it is taken.
SOURCE_STEP = """        if valid_{at} = '1' and ready_{at} = '1' then
          next_{at} <= next_{at} + 1;
          if next_{at} + 1 < {last} then
            read_value(values_{at}, value);
            given_{at} <= value;
            valid_{at} <= {chance};
          else
            valid_{at} <= '0';
          end if;
        elsif valid_{at} = '0' and next_{at} < {last} then
          valid_{at} <= {chance};
        end if;
"""

SINK_STEP = """        ready_{at} <= {chance};
        if valid_{at} = '1' and ready_{at} = '1' then
          if next_{at} = {last} then
            if again = '0' then
              tell("more of {s.array}");
              same := false;
            end if;
          else
            read_value(values_{at}, value);
            if data_{at} /= value then
              tell("value " & integer'image(next_{at}) & " of {s.array}");
              same := false;
            end if;
            next_{at} <= next_{at} + 1;
          end if;
        end if;
"""


def streams_of(design: str) -> list[Stream]:
    """The ports of a design's arrays, in order."""
    head = re.search(r"(?m)^entity network is\n  port \(\n((?:    .*\n)*)  \);$", design)
    ports = re.findall(r"    (\S+) : (in|out) \S", head[1]) if head else []
    ends = [("clk", "in"), ("rst", "in"), ("again", "in")]
    if not design.startswith("-- compaan rtl 1\n") or ports[:3] != ends or ports[-1:] != [("done", "out")]:
        raise Unfit("the text isn't a design's")
    inner = ports[3:-1]
    streams = []
    for (data, way), (valid, _), (ready, _) in zip(inner[::3], inner[1::3], inner[2::3]):
        name = re.fullmatch(r"(.*)_data(_out)?", data.strip("\\"))
        if not name:
            raise Unfit(f"the design has a port {data}, which is no array's")
        streams.append(Stream(name[1], way == "in", data, valid, ready))
    return streams


def bench_files(design: str, frames: Sequence[tuple[Arrays, Arrays]], stalls: bool, most: int) -> dict[str, str]:
    """A test bench that gives the data of each frame, and judges by its answer, with the files of values that it reads. With stalls each
    port is ready at some clocks alone."""
    streams = streams_of(design)
    if not streams:
        raise Unfit("the design gives and takes nothing")
    values = feeds = steps = starts = ""
    came = []
    files = {}
    for at, stream in enumerate(streams):
        all_values: list[int] = []
        for data, answer in frames:
            all_values += dict(data if stream.is_source else answer)[stream.array]
        last = len(all_values)
        files[f"values_{at}.txt"] = "".join(f"{value % 2**64:016x}\n" for value in all_values)
        # What waits for nothing stands there from the reset on.
        first = "'0'" if stalls or (stream.is_source and not last) else "'1'"
        values += VALUES.format(
            s=stream,
            at=at,
            last=last,
            valid=f" := {first}" if stream.is_source else "",
            ready="" if stream.is_source else f" := {first}",
        )
        chance = f"chance({(5 * at + 3) % 32})" if stalls else "'1'"
        if stream.is_source:
            values += SOURCE_VALUE.format(at=at)
            feeds += SOURCE_FEED.format(at=at)
            starts += SOURCE_START.format(at=at) if last else ""
        steps += (SOURCE_STEP if stream.is_source else SINK_STEP).format(s=stream, at=at, last=last, chance=chance)
        came.append(f"next_{at} = {last}")
    joins = ["clk => clk", "rst => rst", "again => again"]
    for at, stream in enumerate(streams):
        joins += [f"{stream.data} => data_{at}", f"{stream.valid} => valid_{at}", f"{stream.ready} => ready_{at}"]
    all_came = " and ".join(came)
    bench = BENCH.format(
        head=HEAD,
        most=most,
        again="1" if len(frames) > 1 else "0",
        values=values,
        feeds=feeds,
        starts=starts,
        joins=",\n".join("      " + it for it in [*joins, "done => done"]),
        steps=steps,
        is_over="done = '1'" if len(frames) == 1 else all_came,
        all_came=f"same and {all_came}",
    )
    return {"bench.vhd": bench, **files}


# ------------------------------------------------------------------------------------------------------------- the frames


def moved(arrays: Arrays, by: int) -> Arrays:
    """The values of each array, moved on by so many places."""
    return [(name, values[by % max(len(values), 1) :] + values[: by % max(len(values), 1)]) for name, values in arrays]


def data_text(arrays: Arrays) -> bytes:
    return "".join(",".join([name, *map(str, values)]) + "\n" for name, values in arrays).encode("latin-1")


def frames_of(program: str, rtl: str, policy: str, kernel: Example, number: int, ports: str = "one") -> Frames:
    """The design of a source, and so many frames: the first has its data, and each behind it the same values, moved on by one place in each
    array. The answers are those of `compaan seq`."""
    planned = harness.planned_words(policy, ports, kernel)
    design = harness.written(rtl, planned, kernel.source)
    events = read_net(harness.text_of(program, "net", policy, kernel)).events
    data = read_arrays(kernel.data.decode("latin-1"))
    frames = []
    for at in range(max(number, 1)):
        frame = moved(data, at)
        answer = harness.written(program, ["seq", *kernel.items], bundled(kernel.source, data_text(frame)))
        frames.append((frame, read_arrays(answer)))
    told = harness.clocks_told(harness.written(rtl, [*planned, "--clocks"], kernel.source), f"{Path(rtl).name} --clocks")
    clocks = None if ports == "all" else harness.clocks_of(program, policy, kernel)
    return Frames(design, events, clocks, told, frames)


def runs_of(frames: Frames) -> list[Run]:
    """What is simulated: one frame by itself, and then all, with stalls and without."""
    count = len(frames.frames)
    return [Run(1, False), Run(count, True), Run(count, False)]


def most_clocks(frames: Frames, run: Run) -> int:
    """The clocks behind which a run is stuck."""
    return 8 * run.frames * frames.events + 1000


def files_of(frames: Frames, run: Run) -> dict[str, str]:
    """The design, its test bench for a run, and the values."""
    made = bench_files(frames.design, frames.frames[: run.frames], run.stalls, most_clocks(frames, run))
    return {"design.vhd": frames.design, **made}


def judged(frames: Frames, run: Run, outcome: Outcome) -> Outcome:
    """The outcome of a run, where the clocks of one frame are those that `compaan sim` counts, and those that `compaan rtl --clocks`
    tells."""
    if run != Run(1, False) or outcome.verdict != "equal":
        return outcome
    if frames.clocks is not None and outcome.clocks != frames.clocks:
        return Outcome("not sim's clocks", outcome.clocks, [f"compaan sim counts {frames.clocks} clocks"])
    if outcome.clocks != frames.told:
        return Outcome("not the told clocks", outcome.clocks, [f"compaan rtl --clocks tells {frames.told} clocks"])
    return outcome


def simulated(ghdl: str, frames: Frames, standard: str) -> Iterator[tuple[Run, dict[str, str], Outcome]]:
    """Each run of a design with its files and its outcome."""
    for run in runs_of(frames):
        files = files_of(frames, run)
        yield run, files, judged(frames, run, harness.simulate(ghdl, files, standard))
