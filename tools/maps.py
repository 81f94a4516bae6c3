"""What `deps` writes as isl's maps: one for each read, from the reader's points to those whose values it reads.

The maps are over the values that loops give their variables, where the text of `deps` counts the turns of a loop with a step above 1. A
tree tells what is read at the reader's points and nothing elsewhere, so each map stands with the reader's domain, which is read of the
source here. Statement number S is the tuple SS; a source and a sink go over the cells of their array.
"""
from __future__ import annotations

from collections.abc import Iterable, Mapping, Sequence

from expression import Form, expression_of, form_of, forms_of
from outline import Access, Guard, Outline
from pieces import Condition, Read, Reader, Sign

# The words that mean something else to isl.
RESERVED = frozenset("and or not exists mod floor floord ceil ceild min max implies true false int infty NaN rat sat lex".split())
NEGATED = {"<": ">=", "<=": ">", ">": "<=", ">=": "<"}


def named(name: str, others: Iterable[str] = ()) -> str:
    """A name as isl takes it, which is none of the others."""
    taken = {*RESERVED, *others}
    while name in taken:
        name += "_"
    return name


class Space:
    """The points of a statement: the names of its loops, what they keep to, and the forms of their turns."""

    def __init__(self, outline: Outline, number: int) -> None:
        self.number, self.outline, self.statement = number, outline, outline.statements[number]
        loops = self.statement.loops
        self.named = {it: named(it, (other for other in loops if other != it)) for it in loops}
        self.names = list(self.named.values())
        self.loops = [self.statement.loop(at) for at in range(len(self.names))]
        self.steps = [outline.step(it) for it in self.loops]
        self.constraints = list(self.edges() if self.statement.kind != "assign" else self.bounds())

    def __str__(self) -> str:
        """The tuple of its points."""
        return self.tuple_of(self.names)

    def tuple_of(self, values: Iterable[object]) -> str:
        return f"S{self.number}[{', '.join(map(str, values))}]"

    def form(self, words: Sequence[str]) -> Form:
        return self.renamed(form_of(expression_of(words), self.outline.values))

    def renamed(self, form: Form) -> Form:
        return form.at({name: Form(0, {it: 1}) for name, it in self.named.items()})

    def lower(self, number: int) -> Form:
        """Where a loop with a step above 1 begins."""
        loop = self.loops[number]
        return self.form(loop.lower) if loop else Form()

    def turns(self) -> list[str]:
        """The turn of each loop at a point: its variable, or how often its step goes into what the variable is past the start."""
        found = []
        for at, (name, step) in enumerate(zip(self.names, self.steps)):
            if step == 1:
                found.append(name)
            else:
                found.append(f"floor(({Form(0, {name: 1}).plus(self.lower(at), -1)})/{step})")
        return found

    def values_at(self, turns: Sequence[Form]) -> list[Form]:
        """The values of the loop variables at these turns."""
        found: dict[str, Form] = {}
        for at, (name, step, turn) in enumerate(zip(self.names, self.steps, turns)):
            found[name] = turn if step == 1 else self.lower(at).at(found).plus(turn, step)
        return list(found.values())

    def edges(self) -> Iterable[str]:
        """The extents of the array of a source or a sink."""
        array = next(it for it in self.outline.arrays if it.name == self.statement.array)
        for name, extent in zip(self.names, array.extents):
            yield f"0 <= {name} < {self.form(extent)}"

    def bounds(self) -> Iterable[str]:
        """The loops and guards round an assignment."""
        steps = iter(self.steps)
        for it in self.statement.around:
            if isinstance(it, Guard):
                for left, sign, right in it.tests:
                    yield f"{self.form(left)} {'=' if sign == '==' else sign if it.holds else NEGATED[sign]} {self.form(right)}"
                continue
            step = next(steps)
            variable = self.named[it.variable]
            lowers, uppers = (map(self.renamed, forms_of(expression_of(words), self.outline.values)) for words in (it.lower, it.upper))
            for lower in lowers:
                yield f"{variable} >= {lower}"
                if step != 1:
                    yield f"({Form(0, {variable: 1}).plus(lower, -1)}) mod {step} = 0"
            for upper in uppers:
                yield f"{variable} {'<' if it.is_strict else '<='} {upper}"

    def cell(self, access: Access) -> str:
        """The cell of an access, as a tuple."""
        return f"{named(access.array)}[{', '.join(str(self.form(it)) for it in access.subscripts)}]"

    def order(self, depth: int) -> str:
        """When each point comes, as a tuple of one entry for each of so many loops, with the places of loops and the statement between."""
        if self.statement.kind != "assign":
            place = -1 if self.statement.kind == "source" else len(self.outline.source)
            entries: list[object] = [place, *self.names]
        else:
            entries = []
            for loop, name in zip(self.loops, self.names):
                entries += [loop.byte if loop else 0, name]
            entries.append(self.statement.place[0])
        entries += [0] * (2 * depth + 1 - len(entries))
        return f"[{', '.join(map(str, entries))}]"


def told(condition: Condition) -> str:
    """A condition as isl takes it."""
    if isinstance(condition, Sign):
        return f"{condition.form} {'>=' if condition.holds else '<'} 0"
    return f"({condition.form}) mod {condition.divisor} {'=' if condition.holds else '>'} 0"


def joined(parts: Iterable[str]) -> str:
    return "{ " + "; ".join(parts) + " }"


def where(conditions: Iterable[str]) -> str:
    text = " and ".join(conditions)
    return f" : {text}" if text else ""


def domain_of(space: Space) -> str:
    """The points of a statement as isl's set."""
    return joined([f"{space}{where(space.constraints)}"])


def map_of(read: Read, spaces: Sequence[Space]) -> tuple[str, str]:
    """The map of a read, and the set of the points at which it reads a cell that nobody wrote before."""
    reader = spaces[read.statement]
    if read.points is not None:
        return points_of(read, spaces)
    pieces, nobody = [], []
    for piece in read.pieces:
        condition = where([*reader.constraints, *map(told, piece.conditions)])
        if piece.writer is None:
            nobody.append(f"{reader}{condition}")
        else:
            writer = spaces[piece.writer]
            pieces.append(f"{reader} -> {writer.tuple_of(writer.values_at(piece.point))}{condition}")
    return joined(pieces), joined(nobody)


def points_of(read: Read, spaces: Sequence[Space]) -> tuple[str, str]:
    """The same of a read that has points and no tree."""
    pieces, nobody = [], []
    for point, source in read.points or []:
        text = at_turns(spaces[read.statement], point)
        if source is None:
            nobody.append(text)
        else:
            pieces.append(f"{text} -> {at_turns(spaces[source[0]], source[1])}")
    return joined(pieces), joined(nobody)


def at_turns(space: Space, turns: Sequence[int]) -> str:
    """One point of a statement."""
    return space.tuple_of(space.values_at([Form(it) for it in turns]))


def spaces_of(outline: Outline) -> list[Space]:
    return [Space(outline, number) for number in range(len(outline.statements))]


def reads_of(deps: str, spaces: Sequence[Space]) -> list[Read]:
    """The reads of a text of `deps`, in forms over the values of loops."""
    return Reader(deps, [it.turns() for it in spaces]).reads()


def isl_text(deps: str, source: bytes, values: Mapping[str, int]) -> str:
    """The maps of all reads, with what each tuple and each read stands for. isl reads each set of braces, and iscc the whole."""
    spaces = spaces_of(Outline(source, values))
    lines = []
    for it in spaces:
        statement = it.statement
        about = f"line {statement.line}: {statement.text}" if statement.kind == "assign" else f"the {statement.kind} of {statement.text}"
        lines.append(f"# {it}: {about}")
    for read in reads_of(deps, spaces):
        statement = spaces[read.statement].statement
        pieces, nobody = map_of(read, spaces)
        lines += ["", f"# read {read.statement} {read.number}: {statement.reads[read.number]} of line {statement.line}"]
        lines.append(f"from_{read.statement}_{read.number} := {pieces};")
        lines.append(f"zero_{read.statement}_{read.number} := {nobody};")
    return "\n".join(lines) + "\n"
