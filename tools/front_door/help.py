"""What `./compaan help` and `./compaan COMMAND --help` print."""
from __future__ import annotations

import re
from collections.abc import Iterable

from .words import CLOCKS, COMMANDS, OF_RTL, OWN, PORTS

OPTIONS = {
    "FILE": "the source; - or none is standard input",
    "NAME=VALUE": "the value of a parameter",
    "K": "a number of 1 to 18 digits",
    "--policy down": "capacities for the schedule that passes values on early; seq, the default, follows the loops",
    "--data FILE": "the values of the in and inout arrays, as CSV: a line is a name and then its values",
    "--certificate FILE": "what cert wrote",
    "--isl": "tells the sources as isl's maps, from each read's points to those that wrote the values",
    "--unproved": "answers by the unproved program, which ./compaan build --unproved makes",
}

# What stands beside these for rtl.
DESIGNING = {
    "--policy least": "capacities below those of down, none of which can be lowered",
    CLOCKS: "writes the number of clocks in place of the design, and beside least capacities that with those of down",
    f"{PORTS} all": "each end of a channel at a process goes at its own pace; one is the default: one after the other",
}

BUILDING = {
    "--unproved": "compiles the program once without a proof, in some minutes",
    "--built": "takes crates/compaan/out/compaan, which rt ci or rt run built of these sources, for the proved program, on your word",
}

FROM_C = {
    "FILE.c": "a function of static affine loops in C",
    "--function NAME": "which function, where the file has several",
    "--out ARRAY": "an array that is only an output, and gets nothing from the data",
}


def lines_of(rows: Iterable[tuple[str, str]], width: int) -> list[str]:
    return [f"{name:{width}}{text}" for name, text in rows]


def help_text() -> str:
    """What `./compaan help` prints."""
    listed = [(f"  {name} K" if name == "load" else f"  {name}", text) for name, (text, _) in COMMANDS.items()]
    split = len(COMMANDS) - len(OWN)
    options = [(name, text) for name, text in OPTIONS.items() if name != "K"]
    return "\n".join(
        [
            "./compaan COMMAND FILE [NAME=VALUE].. [--policy seq|down] [--data FILE] [--certificate FILE] [--unproved]",
            "",
            *lines_of(listed[:split], 15),
            "",
            *lines_of(listed[split:], 15),
            "",
            *lines_of(options, 22),
            "",
            "./compaan COMMAND --help tells of one command. Any other command or word goes to the program as it is.",
            "docs/COMMANDS.md has all of it, docs/LANGUAGE.md the language.",
            "",
        ]
    )


def command_help(command: str) -> str:
    """What `./compaan COMMAND --help` prints."""
    text, reads = COMMANDS[command]
    if command == "help":
        words: list[str] = []
    elif command == "build":
        words = ["[--unproved|--built]"]
    elif command == "load":
        words = ["K", "[--policy seq|down]", "[--unproved]"]
    elif command == "c":
        words = ["FILE.c", "[--function NAME]", "[--out ARRAY].."]
    else:
        words = ["FILE", "[NAME=VALUE]..", "[--policy seq|down|least]" if command == OF_RTL else "[--policy seq|down]"]
        words += ["[--data FILE]"] if "data" in reads else []
        words += ["--certificate FILE"] if "certificate" in reads else []
        words += ["[--isl]"] if command == "deps" else []
        words += [f"[{PORTS} one|all]", f"[{CLOCKS}]"] if command == OF_RTL else []
        words += ["[--unproved]"]
    said = " ".join(words)
    options = BUILDING if command == "build" else FROM_C if command == "c" else OPTIONS | (DESIGNING if command == OF_RTL else {})
    shown = [(name, about) for name, about in options.items() if name.split()[0] in re.findall(r"[-\w=]+", said)]
    return "\n".join([f"./compaan {command} {said}".rstrip(), "", f"  {text}", "", *lines_of(shown, 22)]).rstrip() + "\n"
