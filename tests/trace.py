#!/usr/bin/env python3
"""What docs/TRACE.md and docs/STATEMENTS.md name is there: definitions and theorems in the file that is named, must-fail edits, tests, files, and the lines of the forms.

tests/trace.py            looks
tests/trace.py --lines    first sets the number of each form's line in docs/TRACE.md anew: of the lines with its text the nearest
"""
import re
import sys
from pathlib import Path

ROOT = Path(__file__).resolve().parent.parent


FORM = re.compile(r"(crates/[\w./]+):(\d+) `([^`]+)`")


def cells(name):
    """The cells of a document's tables, but the first of each row."""
    for line in (ROOT / "docs" / name).read_text().splitlines():
        if line.startswith("| ") and not line.startswith("|---"):
            yield from re.split(r" \| ", line.strip("| "))[1:]


def places(path, text):
    """The numbers of the lines of a file that have the text."""
    return [at for at, line in enumerate((ROOT / path).read_text().splitlines(), 1) if text in line]


def renumber(form):
    path, line, text = form.groups()
    nearest = min(places(path, text), key=lambda at: abs(at - int(line)), default=line)
    return f"{path}:{nearest} `{text}`"


def defines(path, name):
    return re.search(rf"^\s*(?:(?:unfoldable|abbrev) )?(?:pub )?(?:(?:data|record) )?{re.escape(name)} (?::|\(|\{{)", path.read_text(), re.M)


def faults_of_trace():
    for cell in cells("TRACE.md"):
        for part in cell.split("; "):
            for path in re.findall(r"\b(?:crates|tests|samples|docs)/[\w./+]*\w", part):
                if not (ROOT / path).exists():
                    yield f"{path} is not there"
            for path, line, text in FORM.findall(part):
                if int(line) not in places(path, text):
                    yield f"{path}:{line} does not have {text}"
            if module := re.search(r"`, (\w+) ([A-Z]\w+)\b", part):
                crate, file = module.groups()
                paths = [path for folder in ("specs", "proofs") if (path := ROOT / "crates" / crate / folder / f"{file}.antt").exists()]
                if not paths:
                    yield f"{crate} {file} is not there"
                for name in re.findall(r"`([\w-]+)`(?=, )", part):
                    if paths and not any(defines(path, name) for path in paths):
                        yield f"{name} is not in {crate} {file}"


def faults_of_edits():
    edits = {path.stem for path in ROOT.glob("crates/*/must-fail/*.edit")}
    named = {name for document in ("TRACE.md", "STATEMENTS.md") for name in re.findall(r"\*(\w+)\*", (ROOT / "docs" / document).read_text())}
    yield from (f"there is no edit {name}" for name in sorted(named - edits))
    yield from (f"no document names the edit {name}" for name in sorted(edits - named))


def main():
    if sys.argv[1:] == ["--lines"]:
        trace = ROOT / "docs" / "TRACE.md"
        trace.write_text(FORM.sub(renumber, trace.read_text()))
    if faults := [*faults_of_trace(), *faults_of_edits()]:
        sys.exit("trace: " + "; ".join(faults))
    print(f"trace: {sum(1 for _ in cells('TRACE.md'))} sentences and forms, and all that is named for them is there")


main()
