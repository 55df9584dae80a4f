#!/usr/bin/env python3
# Respells this repository's own antt names in snake case: codeAt and code-at become code_at. Types, facts and modules keep their capitals.
# usage: tools/respell.py        rewrites crates/ in place, once, and prints the names that would fall together
# `tools/respell.py --map` prints each old name and its new one, and writes nothing.
import glob
import os
import re
import sys

os.chdir(os.path.join(os.path.dirname(os.path.abspath(__file__)), ".."))

# one token of antt, or of a contract: what no delimiter parts
TOKEN = re.compile(r"[^\s(){}\[\],;.:\"`]+")
# a signature, a record, a field or a constructor, at the head of a line
DEFINED = re.compile(
    r"^\s*(?:(?:abbrev|unfoldable)\s+)?(?:pub\s+)?(?:(?:record|data|ruleset)\s+)?([^\s(){}\[\],;.:\"`]+)(?=\s*(?:[({][^=]*)?(?::|=|→)|\s+[{ℓ])"
)
# names that the prover makes for a function's proof
MADE = re.compile(r"^(invariant|decreases)-|^loop-|^returns|^(bounds|overflow|need)-|^(then|else|in|if)-[a-z_]+$")
# what an earlier script made of a name that it took for a library's
GARBLED = {"get_d_tabulate": "get_or_tabulate"}


def texts():
    for crate in sorted(os.listdir("crates")):
        for folder in ("specs", "proofs"):
            for path in sorted(glob.glob(f"crates/{crate}/{folder}/**/*.antt", recursive=True)):
                yield path


def snake(name):
    name = re.sub(r"(?<=[a-z0-9])([A-Z])(?=[a-z0-9_'-]|$)", lambda m: "_" + m[1].lower(), name)
    return name.replace("-", "_")


def own_names():
    """The names to turn, and all that this repository defines."""
    names = set()
    for path in texts():
        if os.path.basename(path) == "Proof.antt":
            name = os.path.basename(os.path.dirname(path))
            with open(path, encoding="utf-8") as f:
                names |= set(re.findall(r"^pub ([^\s:]+-spec) :", f.read(), re.M))
            continue
        with open(path, encoding="utf-8") as f:
            for line in f:
                if line.lstrip().startswith(("--", "use ", "mod ", "pub mod ")):
                    continue
                m = DEFINED.match(line)
                if m:
                    names.add(m[1])
    return {n for n in names if re.match(r"^[a-z]", n) and (("-" in n) or re.search(r"[a-z0-9][A-Z]", n)) and "◌" not in n}, names


def turns():
    """Each name with its new one. A lemma that would have a definition's name gets _lem."""
    old, defined = own_names()
    names = {n: snake(n) for n in sorted(old)} | GARBLED
    capital = {names[n] for n in old if "-" not in n}
    for n in sorted(old):
        if "-" in n and (names[n] in capital or names[n] in defined):
            names[n] += "_lem"
        elif "-" not in n and names[n] in defined:
            names[names[n]] = names[n] + "_lem"
    return names


def imported(text):
    """The names that a file takes from a library, which keep their spelling."""
    names = set()
    for m in re.finditer(r"^\s*(?:pub |ghost )*use ([\w.·]+)\.\{([^}]*)\}", text, re.M):
        own = re.match(r"Rattle\.(\w+)\.", m[1])
        if not own or not os.path.isdir(f"crates/{own[1]}"):
            names |= {it.split(" as ")[-1].strip() for it in m[2].split(",")}
    return names


def turned(text, names, by_hand):
    kept = imported(text)

    def token(m):
        t = m[0]
        made = by_hand and m.start() > 0 and m.string[m.start() - 1] == "." and "-" in t
        if t in kept or made:
            return t
        if t in names:
            return names[t]
        tail = re.match(r"(.*?)('+)$", t)
        return names[tail[1]] + tail[2] if tail and tail[1] in names else t

    def line_of(line):
        body, mark, comment = line.partition("--") if not line.lstrip().startswith("//") else ("", "", line)
        if '"' in body:
            body = '"'.join(TOKEN.sub(token, part) if i % 2 == 0 else part for i, part in enumerate(body.split('"')))
        else:
            body = TOKEN.sub(token, body)
        comment = re.sub(r"`[^`]*`", lambda m: TOKEN.sub(token, m[0]), comment)
        comment = re.sub(r"\b[a-z]+[A-Z]\w*", lambda m: names.get(m[0], m[0]), comment)
        return body + mark + comment

    return "\n".join(line_of(it) for it in text.split("\n"))


def main():
    names = turns()
    if sys.argv[1:] == ["--map"]:
        for n in sorted(names):
            print(n, names[n])
        return
    paths = list(texts()) + sorted(glob.glob("crates/*/src/**/*.rt", recursive=True))
    words = {}
    for path in paths:
        with open(path, encoding="utf-8") as f:
            for t in TOKEN.findall(f.read()):
                words.setdefault(t, set()).add(path)
    by_new = {}
    for n in sorted(names):
        by_new.setdefault(names[n], []).append(n)
        if names[n] in words and names[n] not in names:
            print("is a word already:", n, names[n], len(words[names[n]]), sorted(words[names[n]])[0])
    for olds in by_new.values():
        if len(olds) > 1:
            print("fall together:", *olds)
    for path in paths:
        with open(path, encoding="utf-8") as f:
            text = f.read()
        new = turned(text, names, path.endswith("/Proof.antt"))
        if new != text:
            with open(path, "w", encoding="utf-8") as f:
                f.write(new)


main()
