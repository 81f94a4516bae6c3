"""Which of the words the program refused, which says only that it did."""
from __future__ import annotations

import difflib
import re

from .words import CLOCKS, COMMANDS, OF_RTL, OWN, PORTS, RESERVED, Words, is_name, is_option


def said_of(words: Words) -> str | None:
    """What is wrong with the words of a call, and where to look, or None where nothing is found."""
    wrong = wrong_word(words.passed, words.command == OF_RTL)
    if wrong is None:
        return None
    known = words.command in COMMANDS and words.command not in OWN
    hint = f"./compaan {words.command} --help tells its words" if known else "./compaan help lists the commands"
    return f"{wrong} ({hint})"


def wrong_word(passed: list[str], is_rtl: bool) -> str | None:
    """What is wrong with the words that the program, the second one for rtl, refused, or None where nothing is found."""
    cut = passed.index("--") if "--" in passed else len(passed)
    words = list(passed)
    kept: list[str] = []
    given: set[str] = set()
    values = {"--policy": ("seq", "down", "least") if is_rtl else ("seq", "down")} | ({PORTS: ("one", "all")} if is_rtl else {})
    at = 0
    while at < len(words):
        word = words[at]
        if at == cut:
            kept += words[at + 1 :]
            break
        option = word.partition("=")[0]
        if option in values:
            value = word.partition("=")[2] if "=" in word else (words[at + 1] if at + 1 < cut else "")
            at += "=" not in word
            if value not in values[option]:
                return f"{option} is {', '.join(values[option][:-1])} or {values[option][-1]}, and not {value!r}"
            if option in given:
                return f"{option} stands twice"
            given.add(option)
        elif is_rtl and word == CLOCKS:
            pass
        elif is_option(word):
            return f"there is no option {word}"
        else:
            kept.append(word)
        at += 1
    if not kept:
        return "there is no command"
    command, *rest = kept
    if command not in COMMANDS or command in OWN:
        near = difflib.get_close_matches(command, COMMANDS, 1)
        return f"there is no command {command}" + (f": is {near[0]} meant?" if near else "")
    return wrong_load(rest) if command == "load" else wrong_item(rest)


def wrong_load(rest: list[str]) -> str | None:
    if not rest:
        return "load wants a number, as load 8"
    if not re.fullmatch("[0-9]{1,18}", rest[0]):
        return f"load wants a number of 1 to 18 digits, and {rest[0]} is none"
    return f"load takes one number, and {rest[1]} stands behind it" if rest[1:] else None


def wrong_item(rest: list[str]) -> str | None:
    """The first word that is no NAME=VALUE."""
    seen = set()
    for word in rest:
        name, equals, value = word.partition("=")
        if not equals:
            return f"{word} is no NAME=VALUE, and one FILE alone is taken"
        if not is_name(name):
            return f"{name or 'nothing'} before the = of {word} is no name"
        if name in RESERVED:
            return f"{name} is a word of the language, and no parameter"
        if not re.fullmatch("-?[0-9]{1,18}", value):
            return f"{name} wants a whole number of 1 to 18 digits, and {value or 'nothing'} is none"
        if name in seen:
            return f"{name} has two values"
        seen.add(name)
    return None
