#!/usr/bin/env python3
"""Every public function and method has an `ensures`, no `requires`, and a row of docs/STATEMENTS.md; and no row speaks of one that is gone."""
import re
import sys
from pathlib import Path

ROOT = Path(__file__).resolve().parent.parent
FUNCTION = re.compile(r'^pub (?:extern "C" )?fn (\w+)(.*?)\n\{', re.M | re.S)
METHODS = re.compile(r"^impl(?:<[^>]*>)? (\w+)(?:<[^>]*>)? \{\n(.*?)^\}", re.M | re.S)
METHOD = re.compile(r"^    pub fn (\w+)(.*?)\n    \{", re.M | re.S)
TYPE = re.compile(r"^pub (?:struct|enum) (\w+)", re.M)
MODULE = re.compile(r"^pub mod (\w+);", re.M)
PASSED_ON = re.compile(r"^pub use (\w+)::(?:(\w+)|\{([\w, ]+)\});", re.M)


def own(text):
    """The public functions of a file, and the public methods of its public types, each with its head."""
    yield from FUNCTION.findall(text)
    for name, body in METHODS.findall(text):
        if name in TYPE.findall(text):
            yield from ((f"{name}::{method}", head) for method, head in METHOD.findall(body))


def public(source, path):
    """What a file has of public functions and methods, its public modules have, and it passes on of others."""
    text = source.read_text()
    yield from ((f"{path}::{name}", head) for name, head in own(text))
    for module in MODULE.findall(text):
        yield from public(source.with_name(module + ".rt"), f"{path}::{module}")
    for module, one, several in PASSED_ON.findall(text):
        for found, head in own(source.with_name(module + ".rt").read_text()):
            if found.split("::")[0] in (one, *several.split(", ")):
                yield f"{path}::{found}", head


def main():
    functions = {}
    for root in sorted(ROOT.glob("crates/*/src/lib.rt")):
        functions.update(public(root, root.parts[-3]))
    faults = [f"{f} has a requires" for f, head in functions.items() if re.search(r"\n +requires", head)]
    faults += [f"{f} has no ensures" for f, head in functions.items() if not re.search(r"\n +ensures", head)]
    listed = set(re.findall(r"^\| `(\w+::[\w:]+)`", (ROOT / "docs" / "STATEMENTS.md").read_text(), re.M))
    faults += [f"{f} is not in docs/STATEMENTS.md" for f in sorted(set(functions) - listed)]
    faults += [f"docs/STATEMENTS.md speaks of {f}, which is not there" for f in sorted(listed - set(functions))]
    if faults:
        sys.exit("statements: " + "; ".join(faults))
    print(f"statements: {len(functions)} public functions, each with an ensures, without a requires, and listed")


main()
