"""Runs the netlist of a design as a program: GHDL synthesizes the design, yosys writes the netlist in C++, and a test bench in C++ does at
each edge what that of hardware/frames does. It is many times as fast as a simulation of the text."""
from __future__ import annotations

import os
import re
import shutil
from collections.abc import Iterator, Sequence
from pathlib import Path

from common import stop
from hardware import harness
from hardware.frames import Frames, Run, Stream, files_of, judged, most_clocks, runs_of, streams_of
from hardware.harness import Outcome
from hardware.netlists import verilog_files
from hardware.wiring import Unfit, write_file

WRITE = "read_verilog netlist.v; hierarchy -check -top network; proc; flatten; opt_clean; check -assert; write_cxxrtl -g0 design.cpp"

BENCH = """// A test bench in C++ for a netlist that yosys wrote. Made by tools/hardware/compiled.py.
#include "design.cpp"
#include <cinttypes>
#include <cstdio>
#include <cstdlib>
#include <vector>

template <size_t N> static uint64_t got(const cxxrtl::value<N> &v) {{ return v.template get<uint64_t>(); }}
template <size_t N> static uint64_t got(const cxxrtl::wire<N> &w) {{ return w.curr.template get<uint64_t>(); }}
template <size_t N> static void put(cxxrtl::value<N> &v, uint64_t x) {{ v.template set<uint64_t>(x); }}
template <size_t N> static void put(cxxrtl::wire<N> &w, uint64_t x) {{ w.next.template set<uint64_t>(x); w.curr = w.next; }}

struct Stream {{
  std::vector<uint64_t> values;
  size_t next = 0;
  bool is_up;
  Stream(const char *name, bool is_first_up, bool is_source) : is_up(is_first_up) {{
    uint64_t value;
    FILE *file = fopen(name, "r");
    while (file && fscanf(file, "%" SCNx64, &value) == 1) values.push_back(value);
    if (file) fclose(file);
    if (is_source && values.empty()) is_up = false;
  }}
  bool is_over() const {{ return next == values.size(); }}
  uint64_t value() const {{ return is_up ? values[next] : 0x5555555555555555u; }}
}};

// The words: 1 where frame follows frame, 1 where the ports stall, and the most clocks.
int main(int, char **words) {{
  static cxxrtl_design::p_network top;
  const bool again = words[1][0] == '1', stalls = words[2][0] == '1';
  const uint64_t most = strtoull(words[3], nullptr, 10);
  uint32_t chance = 0x2545f491;
  uint64_t clocks = 0, edges = 0, edges_over = 0;
  bool same = true;
{streams}  while (true) {{
    const bool rst = edges < 2;
    put(top.p_rst, rst);
    put(top.p_again, again);
{inputs}    put(top.p_clk, 0);
    top.step();
{outputs}    const bool done = got(top.p_done);
    put(top.p_clk, 1);
    top.step();
    const uint32_t old = chance;
    chance = chance << 1 | ((old >> 31 ^ old >> 21 ^ old >> 1 ^ old) & 1);
    edges++;
    if (rst) continue;
    const bool have_come = {all_came};
{steps}    if (again ? have_come : done) edges_over++;
    else clocks++;
    if (edges_over == 8) {{
      printf("%s clocks %" PRIu64 "\\n", same && have_come ? "equal" : "different", clocks);
      return 0;
    }}
    if (clocks > most) {{
      printf("stuck clocks %" PRIu64 "\\n", most);
      return 0;
    }}
  }}
}}
"""

SOURCE_STEP = """    if (s{at}.is_up && up{at}) {{
      s{at}.next++;
      s{at}.is_up = !s{at}.is_over() && {chance};
    }} else if (!s{at}.is_up && !s{at}.is_over()) s{at}.is_up = {chance};
"""

SINK_STEP = """    if (up{at} && s{at}.is_up) {{
      if (s{at}.is_over()) {{
        if (!again) {{ puts("more of {s.array}"); same = false; }}
      }} else {{
        if (data{at} != s{at}.values[s{at}.next]) {{ printf("value %zu of {s.array}\\n", s{at}.next); same = false; }}
        s{at}.next++;
      }}
    }}
    s{at}.is_up = {chance};
"""


def port(name: str) -> str:
    """The name of a port in C++."""
    return "p_" + re.sub(r"\W", lambda it: f"_{ord(it[0]):x}_", name.strip("\\").replace("_", "__"))


def bench_text(streams: Sequence[Stream]) -> str:
    """The test bench of a design, which reads the values of its streams in files."""
    made = inputs = outputs = steps = ""
    for at, stream in enumerate(streams):
        chance = f"(!stalls || (old >> {(5 * at + 3) % 32} & 1))"
        made += f'  Stream s{at}("values_{at}.txt", !stalls, {"true" if stream.is_source else "false"});\n'
        data, valid, ready = (f"top.{port(it)}" for it in (stream.data, stream.valid, stream.ready))
        if stream.is_source:
            inputs += f"    put({data}, s{at}.value());\n    put({valid}, s{at}.is_up);\n"
            outputs += f"    const bool up{at} = got({ready});\n"
        else:
            inputs += f"    put({ready}, s{at}.is_up);\n"
            outputs += f"    const bool up{at} = got({valid});\n    const uint64_t data{at} = got({data});\n"
        steps += (SOURCE_STEP if stream.is_source else SINK_STEP).format(s=stream, at=at, chance=chance)
    came = " && ".join(f"s{at}.is_over()" for at in range(len(streams)))
    return BENCH.format(streams=made, inputs=inputs, outputs=outputs, steps=steps, all_came=came)


def headers(yosys: str) -> str:
    """Where yosys keeps the headers of what it writes in C++."""
    for folder in (Path(yosys).parents[1], Path("/usr"), Path("/usr/local")):
        found = folder / "share" / "yosys" / "include"
        if (found / "backends/cxxrtl/cxxrtl.h").is_file():
            return str(found)
    stop("there is no backends/cxxrtl/cxxrtl.h of yosys here (Debian's package yosys-dev has it)")


def compiled(ghdl: str, yosys: str, design: str, folder: str) -> str:
    """The netlist of a design with its test bench, as a program in this folder."""
    compiler = shutil.which("c++") or shutil.which("g++") or shutil.which("clang++")
    if not compiler:
        stop("there is no compiler of C++ here")
    for name, text in verilog_files(ghdl, {"design.vhd": design}).items():
        write_file(folder, name, text)
    write_file(folder, "bench.cpp", bench_text(streams_of(design)))
    well, lines = harness.call([yosys, "-q", "-p", WRITE], folder)
    if not well:
        raise Unfit("not read by yosys: " + "; ".join(lines))
    # without NDEBUG a memory that is read behind its end, where nothing looks at what comes of it, ends the program
    words = [compiler, "-std=c++17", "-O1", "-w", "-DNDEBUG", f"-I{headers(yosys)}", "-o", "bench", "bench.cpp"]
    well, lines = harness.call(words, folder)
    if not well:
        raise Unfit("not compiled: " + "; ".join(lines[:3]))
    return os.path.join(folder, "bench")


def simulated(ghdl: str, yosys: str, frames: Frames) -> Iterator[tuple[Run, Outcome]]:
    """Each run of a design's netlist with its outcome."""
    with harness.new_folder() as folder:
        program = compiled(ghdl, yosys, frames.design, folder)
        for run in runs_of(frames):
            for name, text in files_of(frames, run).items():
                if name.endswith(".txt"):
                    write_file(folder, name, text)
            words = [program, str(int(run.frames > 1)), str(int(run.stalls)), str(most_clocks(frames, run))]
            yield run, judged(frames, run, harness.judged(*harness.call(words, folder)))
