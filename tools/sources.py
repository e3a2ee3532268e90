"""The functions of the Rattle files below crates/, and the edits of crates/*/must-fail and of crates/demands/wrong-claims. Not a command:
the tools beside it use it.
"""
import glob
import os
import re

os.chdir(os.path.join(os.path.dirname(os.path.abspath(__file__)), ".."))

# a function, or indented in an impl a method
HEAD = re.compile(r'^(?: {4})?(pub(?:\(crate\))? )?(?:extern "C" )?fn (\w+)', re.M)
# an impl, by the type that it is of
IMPL = re.compile(r"^impl\b[^{;]*?(\w+)(?:<[^{]*>)? \{", re.M)


def blanked(text):
    """The text with comments and byte literals blanked out, every other character where it was."""
    return re.sub(r"//[^\n]*|b'(?:\\.|[^'])'", lambda m: " " * len(m.group(0)), text)


def closing(text, at):
    """The place after the bracket that closes the one at `at`."""
    opened, closed = text[at], {"(": ")", "{": "}"}[text[at]]
    depth = 0
    for i in range(at, len(text)):
        depth += (text[i] == opened) - (text[i] == closed)
        if depth == 0:
            return i + 1
    raise ValueError(f"no {closed} closes the bracket at {at}")


def uses(text):
    """What the `use` lines of a Rattle file bring in: by its name there, its path."""
    found = {}

    def bring(path, items):
        # the items between commas that stand in no bracket
        depth, start = 0, 0
        for i, c in enumerate(items + ","):
            depth += (c == "{") - (c == "}")
            if c != "," or depth:
                continue
            item, start = items[start:i].strip(), i + 1
            if item.endswith("}"):
                inner, _, rest = item.partition("{")
                bring(path + inner.strip(), rest[:-1])
            elif item:
                full, _, alias = item.partition(" as ")
                full = (path + full).removesuffix("::self")
                found[alias.strip() or full.rsplit("::", 1)[-1]] = full

    for line in re.findall(r"^(?:pub )?use ([^;]*);", text, re.M):
        bring("", " ".join(line.split()))
    return found


def above(text, at):
    """The comment lines directly above the line at `at`, past its attributes."""
    lines = [line.strip() for line in text[:at].split("\n")[:-1]]
    while lines and lines[-1].startswith("#["):
        lines.pop()
    comment = []
    while lines and lines[-1].startswith("//"):
        comment.insert(0, lines.pop()[2:].strip())
    return comment


class Function:
    """A function or method: its `path` (crate::module::name, or crate::module::Type::name), `file`, `public`, `comment` lines,
    `generics`, `parameters`, `contract` and `body`."""

    def __init__(self, file, text, code, head):
        self.file, self.name = file, head.group(2)
        self.crate = file.split("/")[1]
        modules = re.sub(r"\.rt$", "", file.split("/src/", 1)[1]).split("/")
        self.modules = [m for m in modules if m not in ("lib", "main", "mod")]
        if head.group(0).startswith(" "):
            self.modules.append([impl.group(1) for impl in IMPL.finditer(code, 0, head.start())][-1])
        self.path = "::".join([self.crate, *self.modules, self.name])
        self.public = head.group(1) == "pub "
        self.comment = above(text, head.start())
        start = code.index("(", head.end())
        self.generics = code[head.end() : start].strip()
        end = closing(code, start)
        self.parameters = code[start:end]
        at = end
        # each clause has a name or none and braces of its own; what stands before the first is the answer's type
        while clause := re.compile(r"[^{]*?\b(?:requires|ensures|ghost)\b[^{]*\{").match(code, at):
            at = closing(code, clause.end() - 1)
        self.contract = code[end:at]
        opened = code.index("{", at)
        self.answer = code[at:opened] if at == end else self.contract
        self.start, self.end = head.start(), closing(code, opened)
        self.body = code[opened : self.end]

    def proof(self):
        """The folder with what is written of its proof, or nothing where the checker finds it all."""
        folder = os.path.join("crates", self.crate, "proofs", *self.modules, self.name)
        files = [os.path.join(folder, name) for name in ("Answers.antt", "Invariants.antt", "Proof.antt")]
        return folder if any(map(os.path.exists, files)) else None


def functions():
    """Every function of every crate, in the order of the files."""
    found = []
    for file in sorted(glob.glob("crates/*/src/**/*.rt", recursive=True)):
        text = open(file).read()
        code = blanked(text)
        found += [Function(file, text, code, head) for head in HEAD.finditer(code)]
    return found


class Edit:
    """An edit: its `label` (crate/name), and `places`, a (file, offset, old) for each text of a source file that it replaces."""

    def __init__(self, path):
        _, crate, folder, name = path[: -len(".edit")].split("/")
        # the toolchain reads those of must-fail, whose files are the crate's own; tools/wrong-definitions the others
        base = f"crates/{crate}" if folder == "must-fail" else "crates"
        self.label, self.places, self.faults = f"{crate}/{name}", [], []
        file, old, texts = None, None, {}
        for line in open(path).read().split("\n"):
            if line.startswith("file: "):
                file = os.path.join(base, line[len("file: ") :])
            elif line.startswith("old: "):
                old = line[len("old: ") :]
            elif line.startswith("new:") and old is not None:
                given = open(file).read() if os.path.exists(file) else ""
                # a further text is one of what the earlier ones made
                text = texts.get(file, given)
                if text.count(old) != 1:
                    self.faults.append(f"'{old.strip()}' is {text.count(old)} times in {file}")
                texts[file] = text.replace(old, line[len("new:") :].removeprefix(" "))
                self.places.append((file, given.find(old), old))
                old = None


def edits():
    """Every edit of every crate, but for wrong definitions."""
    return [Edit(path) for path in sorted(glob.glob("crates/*/must-fail/*.edit") + glob.glob("crates/demands/wrong-claims/*.edit"))]
