"""The words of a call: which are the script's, which name files, and which the program gets."""
from .base import Status, Stop

# Each command with what `./compaan help` says of it, and what the program reads for it.
COMMANDS = {
    "run": ("what the loops compute, by the network with one thread for each process", "source and data"),
    "seq": ("the same by an interpreter of the loops", "source and data"),
    "net": ("the network: its processes and channels", "source"),
    "cert": ("the network with a certificate, for check", "source"),
    "check": ("whether the network in --certificate is right for FILE, whoever made it", "source and certificate"),
    "deps": ("where each read has its values from, at any size where that is told by trees", "source"),
    "vhdl": ("the network as VHDL, one entity for each process", "source"),
    "rtl": ("the whole design as VHDL: nodes with control by counters, the channel, and the network that joins them", "source"),
    "load": ("a product of K by K matrices run by its network, and what that came to", "nothing"),
    "sim": ("what the loops compute, by the network with one clock for all processes, and the number of clocks", "source and data"),
    "trim": ("capacities none of which can be lowered, and where the network sticks with one place less", "source"),
    "trace": ("a run of the network that workers make over one locked board", "source"),
    "draw": ("the network as a picture, in SVG", "source"),
    "report": ("a page about the program and its network, for a browser", "source and data"),
    "c": ("a source of loops from a function in C", "C"),
    "build": ("proves and builds the program, or shows how far that is; --unproved compiles it without a proof", "nothing"),
    "help": ("this text", "nothing"),
}
# The command of the second program, which gets the words behind it.
OF_RTL = "rtl"
# Options of the second program, which it judges.
CLOCKS, PORTS = "--clocks", "--ports"
OWN = ("draw", "report", "c", "build", "help")

RESERVED = "param in out inout var int for if else min max".split()


class Words:
    """The words of a call."""

    def __init__(self) -> None:
        self.command: "str | None" = None
        self.file: "str | None" = None
        self.data: "str | None" = None
        self.certificate: "str | None" = None
        self.isl = False
        self.unproved = False
        self.wants_help = False
        # Whether a word of digits is among them, which names no file, so that `load 60` reads none.
        self.has_number = False
        # The words that the program gets, its command first.
        self.passed: list[str] = []

    @property
    def reads_nothing(self) -> bool:
        """Whether no bundle is read for the program."""
        return self.file is None and self.has_number

    @property
    def passed_to_rtl(self) -> list[str]:
        """The words that the second program gets, which has no commands."""
        at = self.passed.index(OF_RTL)
        return self.passed[:at] + self.passed[at + 1 :]

    @property
    def items(self) -> list[str]:
        """The values of parameters among the words that the program gets."""
        return [it for it in self.passed if is_item(it)]


class Options:
    """The script's options in a call, and its other words."""

    def __init__(self) -> None:
        self.data: list[str] = []
        self.certificate: list[str] = []
        self.isl = self.unproved = self.help = False
        # The program judges these, also where one stands twice or has no value.
        self.policy: "list[str | None]" = []
        self.ports: "list[str | None]" = []
        self.rest: list[str] = []


def plain_options(arguments: list[str]) -> "Options | None":
    """The options of a call that has only such as this knows, in their plain form, or None: then argparse is imported for the rest."""
    found = Options()
    words = iter(arguments)
    for word in words:
        if not is_option(word):
            found.rest.append(word)
        elif word == "--unproved":
            found.unproved = True
        elif word == "--isl":
            found.isl = True
        elif word == CLOCKS:
            found.rest.append(word)
        elif word in ("--data", "--certificate", "--policy", PORTS):
            value = next(words, "--")
            if value.startswith("-") and (value != "-" or word in ("--policy", PORTS)):
                return None
            getattr(found, word[2:]).append(value)
        else:
            return None
    return found


def words_of(arguments: list[str]) -> Words:
    """Takes the words of a call apart. What isn't the script's goes to the program as it is."""
    cut = arguments.index("--") if "--" in arguments else len(arguments)
    options = plain_options(arguments[:cut])
    if options is None:
        from .options import options_of

        options = options_of(arguments[:cut])
    words = Words()
    words.isl, words.unproved, words.wants_help = options.isl, options.unproved, options.help
    words.data = only_file("--data", options.data)
    words.certificate = only_file("--certificate", options.certificate)
    for word in options.rest:
        is_number = word.isascii() and word.isdigit()
        is_file = words.command is not None and words.file is None and not (is_number or is_option(word) or is_item(word))
        if is_file:
            words.file = word
            continue
        if words.command is None and not is_option(word) and not is_item(word):
            words.command = word
        words.has_number = words.has_number or (words.command != word and is_number)
        words.passed.append(word)
    for option, values in (("--policy", options.policy), (PORTS, options.ports)):
        for value in values:
            words.passed += [option, value] if value is not None else [option]
    words.passed += arguments[cut:]
    return words


def is_option(word: str) -> bool:
    return word.startswith("-") and word != "-"


def is_item(word: str) -> bool:
    name, equals, _ = word.partition("=")
    return bool(equals) and is_name(name)


def is_name(word: str) -> bool:
    """Whether a word has the form of a name of the language: these are the identifiers of ASCII."""
    return word.isascii() and word.isidentifier()


def only_file(option: str, names: list[str]) -> "str | None":
    if len(names) > 1 or "" in names:
        raise Stop(Status.WRONG_WORDS, f"{option} takes the name of one file (./compaan help)")
    return names[0] if names else None
