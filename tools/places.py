#!/usr/bin/env python3
"""Lists the places in crates/*/src that docs/DESIGN-PASS.md counts, point by point.

    python3 tools/places.py [TREE] [POINT..]

TREE is the top of a checkout, POINT a number from 1 to 8; without points it prints the counts alone.
A place is printed as file:line: text."""
import collections
import os
import re
import sys

def sources(tree):
    for crate in sorted(os.listdir(os.path.join(tree, "crates"))):
        top = os.path.join(tree, "crates", crate, "src")
        for folder, _, names in sorted(os.walk(top)):
            for name in sorted(names):
                if name.endswith(".rt"):
                    path = os.path.join(folder, name)
                    with open(path, encoding="utf-8") as file:
                        yield crate, os.path.relpath(path, tree), file.read()


def lines_with(tree, pattern, but=None):
    found = []
    for _, path, text in sources(tree):
        for number, line in enumerate(text.split("\n"), 1):
            code = line.split("//")[0]
            if re.search(pattern, code) and not (but and re.search(but, code)):
                found.append(f"{path}:{number}: {line.strip()}")
    return found


def line_of(text, match):
    return text.count("\n", 0, match.start()) + 1


def between(text, start, opening, closing):
    """What stands from start up to the mark that closes what was opened before it."""
    depth, at = 1, start
    while depth and at < len(text):
        depth += {opening: 1, closing: -1}.get(text[at], 0)
        at += 1
    return text[start : at - 1]


def functions(text):
    """Each function: its name, its parameters as (name, type), and its clauses."""
    for match in re.finditer(r"\bfn (\w+)(<[^{(]*>)?\(", text):
        inside = between(text, match.end(), "(", ")")
        at = match.end() + len(inside) + 1
        parts, level, word = [], 0, ""
        for letter in inside:
            level += {"(": 1, "[": 1, "<": 1, ")": -1, "]": -1, ">": -1}.get(letter, 0)
            if letter == "," and level == 0:
                parts.append(word)
                word = ""
            else:
                word += letter
        parts.append(word)
        params = []
        for part in parts:
            if ":" in part:
                name, kind = part.split(":", 1)
                params.append((name.strip(), re.sub(r"'\w+ ?", "", " ".join(kind.split()))))
        head = text[at : at + 4000]
        stop = re.search(r"\n\s*\{\n|\n\s*\{\}\n|;\n|\{\}\n", head)
        clauses = re.findall(r"(?:requires|ensures)\*?(?: \w+)? (\{.*\})", head[: stop.start() if stop else 4000])
        yield match.group(1), params, clauses, line_of(text, match)


def flags(tree):
    """1: success told by a bool or by an Option of a refusal, enums of two cases, numbers that name kinds."""
    found = []
    texts = list(sources(tree))
    for _, path, text in texts:
        for match in re.finditer(r"fn (\w+)[^{;]*?-> (bool|Option<(?:Fault|Refusal|Stop)>|\S*Result<bool(?:, \w+)?>)", text):
            found.append(f"{path}:{line_of(text, match)}: {match.group(1)} -> {match.group(2)}")
        for match in re.finditer(r"\benum (\w+)[^{]*\{", text):
            body = re.sub(r"//[^\n]*", "", between(text, match.end(), "{", "}"))
            cases = [case for case in re.sub(r"\{[^{}]*\}|\([^()]*\)", "", body).split(",") if case.strip()]
            if len(cases) == 2 and re.search(r"[({]", body):
                found.append(f"{path}:{line_of(text, match)}: enum {match.group(1)} of two cases")
        for match in re.finditer(r"\bconst (\w+): (u8|u16|u32)\b", text):
            name = match.group(1)
            if any(re.search(rf"\b{name}\b(?= =>)|[!=]= (?:\w+::)?{name}\b", other) for _, _, other in texts):
                found.append(f"{path}:{line_of(text, match)}: const {name}: {match.group(2)} tells kinds apart")
    return found


def twins(tree):
    """2: runs of six lines that stand in two files, and functions of one name in two crates."""
    runs = collections.defaultdict(list)
    for _, path, text in sources(tree):
        lines = [line.strip() for line in text.split("\n")]
        lines = [(n, l) for n, l in enumerate(lines, 1) if l and not l.startswith(("//", "use ", "ghost use", "#"))]
        for i in range(len(lines) - 5):
            key = "\n".join(l for _, l in lines[i : i + 6])
            runs[key].append((path, lines[i][0]))
    pairs = collections.Counter()
    first = {}
    for places in runs.values():
        files = sorted({p for p, _ in places})
        for i, one in enumerate(files):
            for other in files[i + 1 :]:
                pairs[(one, other)] += 1
                first.setdefault((one, other), [n for p, n in places if p == one][0])
    found = [f"{a}:{first[(a, b)]}: {k} runs of six lines as in {b}" for (a, b), k in sorted(pairs.items())]
    names = collections.defaultdict(set)
    for crate, _, text in sources(tree):
        for name, _, _, _ in functions(text):
            names[name].add(crate)
    usual = {"new", "fmt", "main", "eq", "clone", "run", "from", "try_from", "from_str", "len", "number", "next", "read", "open", "drop"}
    for name, crates in sorted(names.items()):
        if len(crates) > 1 and name not in usual:
            found.append(f"fn {name}: in {', '.join(sorted(crates))}")
    return found


def loops(tree):
    """3: loops over a count or with one, and additions of one in a loop."""
    return lines_with(tree, r"\bwhile\b|\bfor \w+ in \(?\w*\d*\.\.|\bloop\b|\w \+= 1;|\.get\(\w+\)|enumerate\(\)")


def conversions(tree):
    """4: conversions, copies, comparisons and printing by hand."""
    return lines_with(
        tree,
        r"Ok\(\(\)\) => (None|Ok)|Err\(\w+\) => (Some|Err)\(|None => (Err|None)\b|Ok\((\w+)\) => (Ok|Some)\(\3\)|Some\((\w+)\) => (Ok|Some)\(\5\)"
        r"|fn (of|copied|copy|manner_of|letters_of|\w+_of)\(|\bfn (number|words)\(",
    )


def facts(tree):
    """5: clauses that stand in three functions or more, and parameters that go together through three."""
    clauses = collections.defaultdict(list)
    pairs = collections.defaultdict(list)
    for crate, path, text in sources(tree):
        for name, params, texts, number in functions(text):
            for clause in texts:
                if len(clause) > 12:
                    same = re.sub(r"\.(old|new|now|entry)\b", "", clause)
                    clauses[(crate, same)].append(f"{path}:{number} {name}")
            names = [p for p in params if p[1] not in ("u8", "u16", "u32", "usize", "bool", "u64") and p[0] != "rt"]
            for i, one in enumerate(names):
                for other in names[i + 1 :]:
                    pairs[(crate, one, other)].append(f"{path}:{number} {name}")
    found = []
    for (crate, clause), places in sorted(clauses.items()):
        if len(places) > 2:
            found.append(f"{crate}: {clause[:150]} in {len(places)}: {', '.join(places)}")
    for (crate, one, other), places in sorted(pairs.items()):
        if len(places) > 2:
            found.append(f"{crate}: ({one[0]}: {one[1]}, {other[0]}: {other[1]}) in {len(places)}: {', '.join(places)}")
    return found


def buffers(tree):
    """6: arrays in structs and on the stack, and lengths beside them."""
    return lines_with(tree, r"\[[^\[\]]+; [^\[\]]+\]", but=r"^\s*(const|pub const)")


def switches(tree):
    """7: tables of functions, boxed calls, and matches on the name of a step."""
    return lines_with(tree, r"\bfn\(|\bdyn\b|Box<|match \w*(command|name|word|words|letters|voice|call)\w*\b")


def proofs(tree):
    """8: proof files and their lines, crate by crate."""
    found = []
    for crate in sorted(os.listdir(os.path.join(tree, "crates"))):
        files = count = 0
        for folder, _, names in os.walk(os.path.join(tree, "crates", crate, "proofs")):
            for name in names:
                if name.endswith(".antt"):
                    files += 1
                    with open(os.path.join(folder, name), encoding="utf-8") as file:
                        count += sum(1 for _ in file)
        if count:
            found.append(f"crates/{crate}/proofs: {files} files, {count} lines")
    return found


POINTS = [flags, twins, loops, conversions, facts, buffers, switches, proofs]


def main():
    words = sys.argv[1:]
    tree = words.pop(0) if words and not words[0].isdigit() else "."
    wanted = [int(word) for word in words]
    for number, point in enumerate(POINTS, 1):
        found = point(tree)
        total = len(found)
        if point is proofs:
            total = f"{sum(int(f.split(', ')[1].split()[0]) for f in found)} lines"
        print(f"{number}: {total}: {point.__doc__.split(': ', 1)[1].rstrip('.')}")
        if number in wanted:
            for place in found:
                print("   ", place)


if __name__ == "__main__":
    main()
