"""Whether a public function's contract determines its whole outcome. Not a command: tools/promises uses it.

The outcome is the answer, `result`, and all that is lent `&mut` as it is at exit. A contract is one equation of it with a definition:

    ensures { outcome result mem.new ≡ step_of cpu (lent mem.old) }

- Its left side has the answer, whole or in all its fields, and everything lent at exit, put together by definitions that keep each
  of their arguments in a field of a record. So nothing of the outcome is left out, and nothing is lost on the way.
- Its right side has names that the file brings in, parameters, and references at entry: neither the answer nor anything at exit.
  So any two outcomes that it allows are equal (demands/specs/Determined.antt).

An equation may stand in a clause of its own, or with others in one, joined by ×. Four kinds of contract are other than one
equation. docs/PROMISES.md names the functions of each kind, those and no others:

- an equation, and bounds: more is said of the answer beside the equation;
- an equation each: one for the answer and one for each thing lent, which may be said of the answer;
- done, or left: the quick path's. What is there afterwards is as agreed, or all was left, as the answer says; so the right side
  names the answer too. It may be said for all of what the function is not given;
- of a reader: a generic function, over any reader. What a reader gives is not determined by what was given, so its clauses say how
  the answer, the reader and the buffer lent to it hang together.

Taken for granted: that the checker proves every contract as it is written; what the language means by a contract, and that a function
changes nothing but what is lent to it `&mut`; that a name stands for what the file's `ghost use` lines bring in by it, and that no
two modules of specs/ with the same name are confused there; that the definitions named in docs/PROMISES.md are what is wanted; and
of the quick path, that what `after`, `agreed` and their like (AGREED and FILLED below) say is that a thing was done or left.
"""
import functools
import glob
import os
import re

import sources

KINDS = BOUNDS, EACH, LEFT, READER = "an equation, and bounds", "an equation each", "done, or left", "of a reader"

# of the quick path: the record of what is there afterwards, and what it equals, said of the same answer
AGREED = {"Effects.after": "Effects.agreed", "Units.after_mac": "Units.agreed_mac"}
# an answer filled up from a definition equals that definition
FILLED = {"Near.spotted", "Near.as_read", "Near.controlled_at"}
# what a contract of the quick path may be said for all of, types that have values
ALL = ["Memory"], ["ℕ"], ["Emac"], ["List", "ℕ"]
# the one hypothesis in a contract: of the registers, of which the function is given one
HYPOTHESES = {"quick_parts::operands::spot": ["address_of", "g", "r", "≡", "a"]}


def tree(text):
    """A term as words and, for brackets, lists of them. A field of a term in brackets is a word of its own, as `.value`."""
    stack = [[]]
    for word in re.findall(r"[()]|[^\s()]+", text):
        if word == "(":
            stack.append([])
        elif word == ")":
            closed = stack.pop()
            stack[-1].append(closed)
        else:
            stack[-1].append(word.strip("«»"))
    return stack[0]


def bare(term):
    """A term without the brackets around all of it."""
    while isinstance(term, list) and len(term) == 1 and isinstance(term[0], list):
        term = term[0]
    return term if isinstance(term, list) else [term]


def split(term, word):
    """The parts of a term between a word that stands in no bracket of it."""
    parts = [[]]
    for part in bare(term):
        if part == word:
            parts.append([])
        else:
            parts[-1].append(part)
    return parts


def words(term):
    return [word for part in term for word in (words(part) if isinstance(part, list) else [part])]


@functools.cache
def imports(file):
    """What a file brings in for its contracts: by its name there, the module and the name in it."""
    found = {}
    for module, names in re.findall(r"^ghost use ([^\s{]+)\.\{([^}]*)\};", open(file).read(), re.M):
        for name in names.split(","):
            own, _, new = name.strip().partition(" as ")
            found[(new or own).strip("◌")] = (module, own)
    return found


@functools.cache
def kept(module, name):
    """How many arguments a record has that keeps each in a field of its own; none where it is no such record."""
    of = re.fullmatch(r"Rattle\.(\w+)\.specs\.([\w.]+)", module)
    file = f"crates/{of.group(1)}/specs/{of.group(2).replace('.', '/')}.antt" if of else ""
    text = open(file).read() if os.path.exists(file) else ""
    clauses = re.findall(rf"^{re.escape(name)}((?: [^=\n]+?)?) =\s+(.*)", text, re.M)
    record = re.fullmatch(r"record \{(.*)\}", clauses[0][1]) if len(clauses) == 1 else None
    given = re.findall(r"\w+ = ([^;]+?)\s*(?:;|$)", record.group(1)) if record else []
    return len(given) if given and sorted(given) == sorted(clauses[0][0].split()) else None


@functools.cache
def fields(function, name):
    """The fields of a struct: of the function's crate, or of the one that its file takes the struct from."""
    taken = sources.uses(open(function.file).read()).get(name, "").split("::")[0]
    crate = taken if taken not in ("", "super", "crate") and os.path.isdir(f"crates/{taken}") else function.crate
    for file in glob.glob(f"crates/{crate}/src/**/*.rt", recursive=True):
        for body in re.findall(rf"\bstruct {re.escape(name)} \{{([^}}]*)\}}", open(file).read()):
            return {"." + field for field in re.findall(r"(\w+)\s*:", body)}
    return set()


class Fault(Exception):
    pass


def clauses(contract):
    """The answer's type, if there is one, and what the clauses of a contract say. A clause has a name where there are several."""
    typed = re.match(r"(?:-> ([^{]*?) )?(?=ensures |requires |ghost )", contract)
    at, bodies = typed.end() if typed else 0, []
    while clause := re.compile(r"ensures (?:\w+ )?(?=\{)").match(contract, at):
        end = sources.closing(contract, clause.end())
        bodies.append(contract[clause.end() + 1 : end - 1].strip())
        at = end + len(contract[end:]) - len(contract[end:].lstrip())
    if not bodies or at != len(contract):
        raise Fault("its contract is not of clauses `ensures { .. }` alone")
    return typed.group(1), bodies


class Contract:
    """A function's contract: its `kind` (none where it is one equation), and `says`, the definitions that it equals; or its `fault`."""

    def __init__(self, function):
        self.function, self.kind, self.says, self.fault = function, None, set(), None
        self.answer = "result"
        self.known = imports(function.file)
        try:
            self.read(" ".join(function.contract.split()))
        except Fault as fault:
            self.fault = str(fault)

    def at(self, name, when):
        """Whether a reference has a value by this name: `now`, or where it is lent `&mut` `old` and `new`."""
        return name in self.referred and (when in ("old", "new") if name in self.lent else when == "now")

    def name(self, word):
        """A definition as docs/PROMISES.md names it: Step.step."""
        module, name = self.known.get(str(word), ("", ""))
        return f"{module.rsplit('.', 1)[-1]}.{name}"

    def read(self, contract):
        self.type, bodies = clauses(contract)
        given = re.findall(r"(\w+)\s*:\s*(&(?:'\w+ )?(mut\b)?)?", self.function.parameters)
        given += [("self", *way) for way in re.findall(r"\(\s*(&(?:'\w+ )?(mut\b)?)?\s*(?:mut )?self\b", self.function.parameters)]
        self.given = {name for name, reference, _ in given if not reference}
        self.given |= set(re.findall(r"const (\w+):", self.function.generics))
        self.referred = {name for name, reference, _ in given if reference}
        self.lent = {name for name, _, mut in given if mut}
        if self.answer in self.given | self.referred:
            raise Fault("its answer has the name of a parameter")
        if re.fullmatch(r"<\w+: Read>", self.function.generics):
            self.kind = READER
            return self.reader(bodies)
        if "<" in re.sub(r"\b(?:Option|Result)<[\w, ]*>", "", self.function.parameters) or self.known.get("≡") != ("Rattle.std.specs.Prelude", "◌≡◌"):
            raise Fault("a parameter holds a reference, or ≡ is not the library's")
        bodies = [bare(tree(body)) for body in bodies]
        if self.name(next(iter(split(bodies[0], "→")[-1]), "")) in set(AGREED) | FILLED:
            self.kind = LEFT
            if len(bodies) != 1:
                raise Fault("its contract is not one clause")
            self.quick(bodies[0])
        else:
            parts = [part for body in bodies for part in split(body, "×")]
            equations = [part for part in map(bare, parts) if "≡" in part]
            if not equations:
                raise Fault("its ensures is no equation")
            self.kind = None if len(parts) == 1 else EACH if len(equations) == len(parts) else BOUNDS
            told = set()
            for equation in equations:
                left, right = self.sides(equation)
                self.determined(right, {self.answer} if self.kind == EACH and self.answer in told else set())
                told |= self.told(left)
            self.whole(told)

    def sides(self, equation):
        sides = split(equation, "≡")
        if len(sides) != 2 or not all(sides):
            raise Fault("its ensures is no equation")
        return sides

    def told(self, term):
        """What of the outcome a left side tells: the answer, its fields, and the lent things at exit."""
        term = bare(term)
        if term == [self.answer] or len(term) == 1 and term[0] in self.given:
            return set(term)
        if len(term) == 1 and (field := re.fullmatch(rf"{self.answer}(\.\w+)", term[0])):
            return {field.group(1)}
        if len(term) == 1 and (lent := re.fullmatch(r"(\w+)\.(now|old|new)", term[0])) and self.at(lent.group(1), lent.group(2)):
            return set(term) if lent.group(2) == "new" else set()
        if not isinstance(term[0], str) or kept(*self.known.get(term[0], ("", ""))) != len(term) - 1:
            raise Fault(f"its left side loses something: {' '.join(words(term))}")
        return set().union(*(self.told([part]) for part in term[1:]))

    def whole(self, told):
        """What is told is the whole outcome."""
        for name in sorted(self.lent):
            if name + ".new" not in told:
                raise Fault(f"its equation says nothing of {name} at exit")
        each = fields(self.function, self.type) if self.type else set()
        if self.type and self.answer not in told and not (each and each <= told):
            raise Fault("its equation does not have the whole answer")

    def determined(self, term, also=frozenset()):
        """A right side is said of what is given, and of what else may be named."""
        for word in words(term):
            first, *fields = word.split(".")
            if first in self.referred:
                named = fields[:1] in (["old"], ["now"]) and self.at(first, fields[0])
            elif first == self.answer:
                named = first in also
            else:
                # a field of a term in brackets has nothing before its dot
                named = first in self.given or first in also or first in self.known or first == "" and fields
            if not (named or re.fullmatch(r"[0-9][0-9A-Fa-fx_]*", word)):
                raise Fault(f"its right side is said of {word}")
            self.says.add(self.name(word))

    def reader(self, bodies):
        """A contract of a reader, whose clauses speak of all that is there afterwards."""
        said = {word for body in bodies for word in words(tree(body))}
        for name in [self.answer, *(name + ".new" for name in sorted(self.lent))]:
            if name not in said:
                raise Fault(f"its clauses say nothing of {name}")
        self.says |= {self.name(word) for word in said if word in self.known}

    def quick(self, body):
        """A contract of the quick path, which may be for all of what the function is not given."""
        *front, equation = split(body, "→")
        binders = front[0] if front else []
        forall = all(":" in part and part[part.index(":") + 1 :] in ALL for part in binders)
        if not forall or front[1:] not in ([], [HYPOTHESES.get(self.function.path)]):
            raise Fault("its equation is under a hypothesis")
        left, right = self.sides(equation)
        if left[1:2] != [self.answer]:
            raise Fault("its left side is not said of the answer")
        if self.name(left[0]) in FILLED:
            self.says.add(self.name(left[0]))
            if bare(left[2:]) != bare(right) or self.lent:
                raise Fault("its right side is not the definition that its left side is filled up from")
        elif self.name(right[0]) != AGREED[self.name(left[0])] or right[1:2] != [self.answer]:
            raise Fault(f"its right side is not {AGREED[self.name(left[0])]} of the answer")
        else:
            told = {part.removesuffix(".new") for part in left if isinstance(part, str) and part.endswith(".new")}
            if told != self.lent:
                raise Fault(f"its equation says nothing of {' and '.join(sorted(self.lent - told))} at exit")
            right = right[:1] + right[2:]
        self.determined(right, {name for part in binders for name in part[: part.index(":")]})
