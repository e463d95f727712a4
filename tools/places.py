#!/usr/bin/env python3
"""places.py [ROOT]: where src/ has a form that today's Rattle has a better one for, and how often, a line for each. docs/DESIGN-PASS.md says what each line is for."""
import collections, glob, re, sys

root = sys.argv[1] if len(sys.argv) > 1 else "."
files = {p: open(p).read() for p in sorted(glob.glob(root + "/crates/*/src/**/*.rt", recursive=True))}


def crate(path):
    return path[len(root) :].lstrip("/").split("/")[1]


def functions():
    """crate, name, parameters, clauses, body"""
    for path, text in files.items():
        for m in re.finditer(r"^( *)(?:pub(?:\([a-z]+\))? )?(?:extern \"C\" )?fn (\w+)[^(]*\(([^)]*)\)[^{;]*?((?:\n +(?:requires|ensures)[^\n]*)*)\n?\s*\{\n(.*?)\n\1\}\n", text, re.S | re.M):
            yield crate(path), m[2], m[3], m[4], m[5]


def show(point, what, found):
    found = sorted(found)
    print(f"{point}  {len(found):3}  {what}: {', '.join(found)}")


def lines(pattern):
    return [f"{crate(p)} {m[0].strip().split(chr(10))[0][:40]}" for p, t in files.items() for m in re.finditer(pattern, t, re.M)]


# 1: enums of at most three variants of which one has fields; structs of a flag or a number and a value; numbers that stand for kinds
enums = []
for path, text in files.items():
    for m in re.finditer(r"^(?:pub(?:\([a-z]+\))? )?enum (\w+) \{\n(.*?)\n\}", text, re.S | re.M):
        variants = [v for v in re.findall(r"^    (\w+)(\(|,| =| \{)", m[2], re.M)]
        if 2 <= len(variants) <= 3 and any(v[1] in ("(", " {") for v in variants):
            enums.append(f"{crate(path)}::{m[1]}")
show(1, "enums of two or three cases, one with a value", enums)
show(1, "structs of a flag, a kind or a number beside a value", [f"{crate(p)}::{m[1]}" for p, t in files.items() for m in re.finditer(r"^(?:pub(?:\([a-z]+\))? )?struct (\w+) \{\n(?:(?!\}).*\n)*? +(?:pub )?(?:passes|formed|begun|resumed|shape|number): ", t, re.M)])
kinds = collections.Counter()
for path, text in files.items():
    for m in re.finditer(r"^(?:pub(?:\([a-z]+\))? )?const (\w+): (?:u8|u64|usize|bool) = (?:\d|true|false|codes::COUNT|[45]\d);", text, re.M):
        if re.search(r"rules/src/(tags|codes)|operand\.rt|held\.rt|reading\.rt|places/src", path) and not m[1].endswith(("_WEIGHT", "SPAN", "BITS")) and m[1] not in ("COUNT", "SIZE"):
            kinds["/".join(path.split("/")[-3:])] += 1
show(1, "files of numbers that stand for kinds", [f"{p} {n}" for p, n in kinds.items()])
show(1, "matches that write out the number of each case", [f"{c}::{n}" for c, n, _, _, b in functions() if len(re.findall(r"=> \d+,", b)) >= 2])
# 2: functions of one body, but for names of types, numbers and paths
bodies = collections.defaultdict(list)
for c, n, a, _, b in functions():
    if c == "sam_c" and n.startswith("sam_"):
        continue
    shape = re.sub(r"\b\d[\w]*\b|\b[A-Z]\w*\b", "0", re.sub(r"//[^\n]*", "", b))
    shape = re.sub(r"\b(?!(?:if|else|match|return|while|for|in|let|mut|loop|as|fn|true|false)\b)[a-z_]\w*\b", "x", shape)
    shape = re.sub(r"(?:x|0)(?:::(?:x|0))+", "x", re.sub(r"\s+", " ", shape))
    if len(re.findall(r"\w+|[^\w\s]", shape)) >= 12:
        bodies[shape].append(f"{c}::{n}")
show(2, "functions whose body another has", [n for ns in bodies.values() if len(ns) > 1 for n in ns])
# 3
show(3, "while and loop", lines(r"^ *(?:while (?!let)|loop\b).*"))
show(3, "for over a range of indices from 0", lines(r"^ *for \w+ in 0\.\..*"))
# 4
show(4, "classes of bytes, equality and the larger of two by hand", [f"{c}::{n}" for c, n, _, _, b in functions() if re.fullmatch(r"is_(?:blank|digit|letter|word_byte|allowed|capital)|same\w*|larger|above|signed|word|in_word", n) and re.search(r"if |while|for ", b)])
show(4, "tests that return false or true, one under another", lines(r"^ +(?:return (?:false|true));\n +\}\n +(?:if|\w[^\n;{}]*\n\})"))
show(4, "values copied field by field", [f"{c}::{n}" for c, n, _, _, b in functions() if len(re.findall(r"\b(n|h|pc|sp|fbr|halt|used|kept|written): \w+\.\1\b", b)) >= 3])
# 5
pair = [f"{c}::{n}" for c, n, a, _, _ in functions() if re.search(r"\btable: &\[u64\]", a) and re.search(r"\b(length|count): (usize|u64)", a)]
show(5, "parameters, a table and its length", pair)
show(5, "parameters, four lengths", [f"{c}::{n}" for c, n, a, _, _ in functions() if all(re.search(rf"\b{x}: usize", a) for x in ("bits", "tags", "history"))])
show(5, "parameters, a token's start and end", [f"{c}::{n}" for c, n, a, _, _ in functions() if re.search(r"\bstart: usize", a) and re.search(r"\bend: usize", a)])
show(5, "parameters, bits, tags, history and output", [f"{c}::{n}" for c, n, a, _, _ in functions() if all(re.search(rf"\b{x}: &", a) for x in ("bits", "tags", "history", "output"))])
show(5, "parameters, registers, and bits and tags to read", [f"{c}::{n}" for c, n, a, _, _ in functions() if re.search(r"\bbits: &\[", a) and re.search(r"\btags: &\[", a) and "history" not in a and "Registers" in a])
facts = collections.Counter()
for c, n, a, q, _ in functions():
    for m in set(re.findall(r"[\w ()./≤<≡+*-]+", " ".join(re.findall(r"requires[^{]*\{(.*)\}", q)))):
        m = m.strip(" ()")
        if re.search(r"[≤<≡]|^[A-Z]\w+ ", m) and "→" not in m:
            facts[f"{c}: {re.sub(r'[.](old|now|new)', '', m)}"] += 1
show(5, "facts that three or more requires have", [f"{f} ({n})" for f, n in facts.items() if n >= 3])
# 6
show(6, "functions with cells as two slices", [f"{c}::{n}" for c, n, a, _, _ in functions() if re.search(r"\bbits: &", a) and re.search(r"\btags: &", a)])
show(6, "numbers packed into words", [f"{'/'.join(p.split('/')[-3:])} {len(re.findall(r'const [A-Z_]+_WEIGHT', t))}" for p, t in files.items() if re.search(r"const [A-Z_]+_WEIGHT", t)])
# 7
show(7, "matches on a code or a shape, ten arms or more", [f"{c}::{n}" for c, n, _, _, b in functions() if len(re.findall(r"^ +(?:codes|Shape|Plan)::|^ +Ok\(Plan", b, re.M)) >= 10])
# 8
proofs = [open(p).read() for p in glob.glob(root + "/crates/*/proofs/**/*.antt", recursive=True)]
answers = [open(p).read() for p in glob.glob(root + "/crates/*/proofs/**/Answers.antt", recursive=True)]
print(f"8  {sum(t.count(chr(10)) for t in proofs)} lines of proofs, {len(answers)} files of answers with {sum(len(re.findall('^pub ', t, re.M)) for t in answers)} answers")
