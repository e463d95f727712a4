#!/usr/bin/env python3
"""Spells the repository's own definitions and lemmas in snake case, once, after the kit's port.py.

usage: python3 tools/respell.py          at the top of the repository

A name that a file of specs/ or proofs/ declares (a definition, a lemma, a field, a constructor in small letters) goes from `stepsInUse` or
`steps-cut` to `steps_in_use`, `steps_cut`: in .antt files, in the clauses of .rt files, in the edits of must-fail/, and in the code spans of the
documents. Functions of src/, strings and names that Rattle makes keep theirs. A second run changes nothing. `--check` tells what it would do,
and where a new name would meet one that a file already has.
"""

import os
import re
import sys

WORD = re.compile(r'[^\s(){}.;,@"«»`]+')
HEAD = re.compile(r"^\s*(?:(?:unfoldable|abbrev|pub|axiom)\s+)*(?:(?:record|data)\s+)?([^\s:(){}.,;@\"]+)(?=[\s:({])")
NOT_A_NAME = {"use", "mod", "pub", "abbrev", "unfolding", "mutual", "module", "where", "open", "infix", "infixl", "infixr", "let", "in", "--"}
QUIET = re.compile(r'"(?:[^"\\\n]|\\.)*"|(?<![^\s(){}.;,@"])--[^\n]*')
CLAUSE = re.compile(r"\b(?:requires|ensures|ghost)\*?\s*(?:\w+\s*)?:?\s*\{|\bghost use\b")
SPAN = re.compile(r"`[^`\n]*`")
# Names that would meet another one, with what they are called instead.
OTHERWISE = {"is-nan": "is_nan_lem", "nan-bits": "nan_bits_lem", "isNaN": "stands_for_nan", "digit-AF": "digit_capital"}


def snake(name):
    words = re.sub(r"(?<=[^A-Z_-])([A-Z]+)", r"_\1", name.replace("NaN", "Nan"))
    return OTHERWISE.get(name, words.replace("-", "_").lower())


def files(top, endings, below="crates"):
    for folder, folders, names in os.walk(os.path.join(top, below)):
        folders[:] = sorted(f for f in folders if f not in ("out", ".git", "target"))
        for name in sorted(names):
            if name.endswith(endings):
                yield os.path.join(folder, name)


def read(path):
    with open(path, encoding="utf-8") as f:
        return f.read()


def declared(top):
    """The names that the repository's antt declares, each with a file that does; those of type `tie.`, Rattle's goals, are no names of ours."""
    found = {}
    for path in files(top, ".antt"):
        lines = read(path).split("\n")
        for line in lines:
            m = HEAD.match(line)
            if m and m[1] not in NOT_A_NAME and re.search(r"(?:^|[\s})]):(?:\s|$)", line) and " tie." not in line:
                found.setdefault(m[1], path)
    return found


def lent(top):
    """The names that files bring in from the library: they stay."""
    ours = set(os.listdir(os.path.join(top, "crates")))
    out = set()
    for path in files(top, (".antt", ".rt")):
        for head, items in re.findall(r"^(?:pub |ghost )?use ([^\s{};]+)\.\{([^}]*)\}", read(path), re.M):
            steps = head.split(".")
            if steps[0] != "Rattle" or steps[1] not in ours:
                out.update(re.split(r"[\s,]+|\bas\b", items))
    return out


def table(top):
    """Old names to new. Where a lemma `first-failing` would meet a definition `firstFailing`, the lemma is called `first_failing_lem`."""
    names = [n for n in declared(top).keys() - lent(top) if re.match(r"[a-z]", n) and "◌" not in n]
    camel = {snake(n) for n in names if re.search(r"[A-Z]", n) and "-" not in n}
    out = {}
    for name in names:
        new = snake(name)
        if ("-" in name or name == new) and new in camel:
            new += "_lem"
        if new != name:
            out[name] = new
    return out


def words(text, names):
    return WORD.sub(lambda m: names.get(m[0], m[0]), text)


def outside(pattern, text, inner, outer):
    out, at = [], 0
    for m in pattern.finditer(text):
        out += [outer(text[at : m.start()]), inner(m[0])]
        at = m.end()
    return "".join(out + [outer(text[at:])])


def made(text):
    """Where a path of Rattle's begins: what stands right behind `tie.` and `goal.` is its name, not ours."""
    return re.sub(r"(?<![^\s(){};,])(tie|goal)\.([^\s(){}.;,]+)", lambda m: f"{m[1]}.\0{m[2]}", text)


def antt(text, names):
    camel = {k: v for k, v in names.items() if "-" not in k}
    turned = outside(QUIET, made(text), lambda q: q if q[0] == '"' else words(q, camel), lambda t: words(t, names))
    return turned.replace("\0", "")


def closing(text, at):
    depth = 1
    while at < len(text) and depth:
        depth += (text[at] == "{") - (text[at] == "}")
        at += 1
    return at


def rt(text, names):
    camel = {k: v for k, v in names.items() if "-" not in k}
    out, at = [], 0
    while m := CLAUSE.search(text, at):
        end = text.index(";", m.end()) + 1 if m[0] == "ghost use" else closing(text, m.end())
        before = outside(re.compile(r"//[^\n]*"), text[at : m.start()], lambda c: words(c, camel), lambda t: t)
        out += [before, m[0], words(text[m.end() : end], names)]
        at = end
    rest = outside(re.compile(r"//[^\n]*"), text[at:], lambda c: words(c, camel), lambda t: t)
    return "".join(out + [rest])


def words_of_before(text, names, known):
    """The same where the text has not been through port.py, which spelled some names already: `floatOf` as `float_of`."""
    return WORD.sub(lambda m: names.get(m[0]) or (snake(m[0]) if re.search(r"[a-z][A-Z]|[a-z]-[a-z]", m[0]) and snake(m[0]) in known else m[0]), text)


def md(text, names, known):
    return SPAN.sub(lambda m: words_of_before(m[0], names, known), text)


def edit(text, names, known):
    return "\n".join(words_of_before(line, names, known) if re.match(r"old:|new:", line) else line for line in text.split("\n"))


def turned(top, names):
    for path in files(top, (".antt", ".rt", ".edit")):
        how = antt if path.endswith(".antt") else rt if path.endswith(".rt") else edit
        yield path, read(path), how
    for path in [*files(top, ".md", "docs"), os.path.join(top, "README.md"), os.path.join(top, "bench/README.md")]:
        if "/landings/" not in path and "PORT" not in path and os.path.exists(path):
            yield path, read(path), md


def clashes(text, names):
    there = set(WORD.findall(QUIET.sub(" ", text)))
    for old in sorted(there & set(names)):
        if names[old] in there:
            yield old, names[old]
    new = {}
    for old in sorted(there & set(names)):
        if names[old] in new:
            yield old, new[names[old]]
        new[names[old]] = old


def main():
    top, check = ".", "--check" in sys.argv
    names = table(top)
    known = set(declared(top)) | set(names.values())
    n = 0
    for path, text, how in list(turned(top, names)):
        if check and how is not md:
            for old, new in clashes(text, names):
                print(f"meets: {path}: {old} -> {names[old]} ({new})")
        after = how(text, names) if how in (antt, rt) else how(text, names, known)
        if after != text:
            n += 1
            if not check:
                with open(path, "w", encoding="utf-8") as f:
                    f.write(after)
    print(f"respell: {len(names)} names, {n} files")


if __name__ == "__main__":
    main()
