"""Crates without their functions. Not a command: tools/wrong-definitions uses it.

The theorems of `demands` speak of the definition alone, so the functions are taken out of the copy that a wrong definition is tried in.
With them a wrong definition would be refused below, where a function is proved to equal it, and no theorem would be reached.

Left of a .rt file, in the layout of `rt fmt`, are its types with what contracts see of them (`impl Model`), constants and modules, and of
its imports what these name. Functions, other impls, traits, macros and modules of tests inside the file go, and so does the crate's folder
proofs/. A module of tests that is a file of its own is such a file: its constants are left.
"""
import glob
import os
import re
import shutil

LEFT = re.compile(r"^(?:pub(?:\([^)]*\))? )?(?:mod \w+;|(?:struct|enum|type)\b|const (?!fn\b)|(?:ghost )?use\b|impl\b.* Model for\b)", re.M)
IMPORT = re.compile(r"^((?:pub(?:\([^)]*\))? |ghost )?use [^;{]*?)(?:\{([^}]*)\}|([^:.;{}]+));", re.M)


def items(text):
    """The items of a file, each with its attributes, and the attributes of the file itself. The last line of an item is not indented."""
    item = []
    for line in text.split("\n"):
        code = re.sub(r"\s*//.*", "", line)
        if code:
            item.append(code)
        if re.match(r"#!|[^\s#].*[;}]$|[;}]", code):
            yield "\n".join(item)
            item = []


def names(name, text):
    """Whether a text names what an import brings in: of an operator, as `◌≡◌`, each of its parts."""
    parts = name.split(" as ")[-1].split("◌")
    return all(re.search(rf"(?<!\w){re.escape(part)}(?!\w)", text) for part in parts if part)


def narrowed(item, text):
    """An import with what a text names of it, or nothing."""
    path, several, one = IMPORT.search(item).groups()
    if one:
        return item if one == "*" or names(one, text) else ""
    wanted = [name for name in re.findall(r"[^\s,][^,]*", several) if names(name.strip(), text)]
    return f"{path}{{{', '.join(wanted)}}};" if wanted else ""


def stripped(text):
    """A .rt file without its functions."""
    left = [item for item in items(text) if item.startswith("#!") or LEFT.search(item)]
    rest = "\n".join(item for item in left if not IMPORT.search(item))
    left = [narrowed(item, rest) if IMPORT.search(item) else item for item in left]
    return "\n\n".join(item for item in left if item) + "\n"


def strip(crate):
    """Takes the functions out of a crate's folder, and the proofs about them."""
    for path in glob.glob(os.path.join(crate, "src/**/*.rt"), recursive=True):
        with open(path) as file:
            text = file.read()
        with open(path, "w") as file:
            file.write(stripped(text))
    shutil.rmtree(os.path.join(crate, "proofs"), ignore_errors=True)
