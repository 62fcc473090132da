#!/usr/bin/env python3
"""Brings the names of this repository's definitions and lemmas to today's spelling: run once, at the top, right after the kit's port.py.

A name that this repository declares in specs/ or proofs/ (a definition, a lemma, a record's field, a case of a datatype) and that has a dash, or a capital
inside a name in small letters, is respelled: words in snake case, types and facts in camel case. Names that Rattle makes for goals and steps stay. In .rt files only
clauses, ghost items and what stands between backticks change; in pages what stands between backticks. It says which names would fall together, and writes nothing then.
"""
import collections
import glob
import re
import sys

NAME = r"[^\s:(){}\[\],;.⟨⟩λ=\"«»∙]+"
DECLARED = re.compile(r"^[ ]*((?:(?:pub|abbrev|unfoldable|data|record|ruleset)\s+)*)(" + NAME + r")\s*(?=(?::\s)|(?:[({][^=\n]*:))", re.M)
TOKEN = re.compile(r"(?<![\w'-])[A-Za-z][\w'₀-₉]*(?:-[\w'₀-₉]+)*(?![\w'-])")
TICKED = re.compile(r"`[^`\n]*`")


# these would fall together with others by the rule
BY_HAND = {"inUse": "counts_used", "tailOf": "list_tail"}


def read(path):
    with open(path, encoding="utf-8") as f:
        return f.read()


def antt_files():
    return sorted(p for p in glob.glob("crates/*/specs/**/*.antt", recursive=True) + glob.glob("crates/*/proofs/**/*.antt", recursive=True))


def spelled(name):
    if name in BY_HAND:
        return BY_HAND[name]
    if name[0].isupper():
        return "".join(part[:1].upper() + part[1:] for part in name.split("-"))
    name = name.replace("getD", "get_or")
    name = re.sub(r"(?<=[a-z])([A-Z])", lambda m: "_" + m.group(1).lower(), name)
    return name.replace("-", "_")


def without_remarks(text):
    return re.sub(r"--.*", "", text)


def renamings():
    made = set()
    for path in antt_files():
        made.update(re.findall(r"\bgoal\.([^\s(){}:,;.]+)", read(path)))
    own = set()
    for path in antt_files():
        for m in DECLARED.finditer(without_remarks(read(path))):
            if m.group(2) not in made:
                own.add(m.group(2))
    turned = {n: spelled(n) for n in own if spelled(n) != n and re.fullmatch(r"[A-Za-z][\w'₀-₉-]*", n)}
    back = collections.defaultdict(set)
    for n in own:
        back[spelled(n)].add(n)
    clash = [sorted(ns) for ns in back.values() if len(ns) > 1]
    return turned, clash


def turn(text, turned):
    return TOKEN.sub(lambda m: turned.get(m.group(), m.group()), text)


def turn_antt(text, turned):
    lines = []
    for line in text.split("\n"):
        code, dashes, remark = line.partition("--")
        lines.append(turn(code, turned) + dashes + TICKED.sub(lambda m: turn(m.group(), turned), remark))
    return "\n".join(lines)


# a clause or a ghost item begins so; a clause ends where its braces are closed, an item at its semicolon or closing brace
GHOST = re.compile(r"\b(?:requires|ensures|invariant|decreases)\*?(?:\s+[a-z_0-9]+)?\s*\{|\bghost\s")


def turn_rust(text, turned):
    out, at = [], 0
    text = re.sub(r"//[^\n]*", lambda m: TICKED.sub(lambda t: turn(t.group(), turned), m.group()), text)
    for m in GHOST.finditer(text):
        if m.start() < at:
            continue
        line = text[text.rfind("\n", 0, m.start()) + 1 : m.start()]
        if "//" in line or '"' in line:
            continue
        i, depth = m.start(), 0
        while i < len(text):
            c = text[i]
            if c == "{":
                depth += 1
            elif c == "}":
                depth -= 1
                if depth == 0:
                    i += 1
                    break
            elif c in ";," and depth == 0 and c == ";":
                i += 1
                break
            i += 1
        out.append(text[at : m.start()])
        out.append(turn(text[m.start() : i], turned))
        at = i
    out.append(text[at:])
    return "".join(out)


def main():
    turned, clash = renamings()
    if clash:
        print("fall together:", clash)
        return 1
    changed = 0
    for path in antt_files():
        text = read(path)
        new = turn_antt(text, turned)
        now = set(TOKEN.findall(without_remarks(text)))
        for old in sorted(now & turned.keys()):
            if turned[old] in now:
                print(f"look: {path}: {old} becomes {turned[old]}, which stands there already")
        changed += write(path, text, new)
    for path in sorted(glob.glob("crates/*/src/**/*.rt", recursive=True)):
        text = read(path)
        changed += write(path, text, turn_rust(text, turned))
    for path in sorted(glob.glob("crates/*/must-fail/*.edit")):
        text = read(path)
        changed += write(path, text, turn(text, turned) if "file: specs/" in text or "file: proofs/" in text else turn_rust(text, turned))
    for path in ["README.md"] + sorted(glob.glob("docs/*.md")):
        text = read(path)
        changed += write(path, text, TICKED.sub(lambda m: turn(m.group(), turned), text))
    print(f"respelled {len(turned)} names in {changed} files")
    return 0


def write(path, text, new):
    if new == text:
        return 0
    with open(path, "w", encoding="utf-8") as f:
        f.write(new)
    return 1


if __name__ == "__main__":
    sys.exit(main())
