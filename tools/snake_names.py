#!/usr/bin/env python3
"""Brings the repository's own definitions, lemmas and fields to snake case: run once, at the top, after port.py.

Renamed is what specs/ and proofs/*.antt declare: `touchesOn` is `touches_on`, `cut-covered` is `cut_covered`.
Where a lemma's name falls together with a definition's, the lemma takes `_lem`.
Names from Rust source, names that the prover makes, and what comes from the library keep their spelling.
Comments and pages are turned within backticks alone; texts are not turned.
"""
import collections
import glob
import re

NAME = re.compile(r"[A-Za-z0-9_'\-\u0370-\u03ff₀-₉]+")
DECLARED = re.compile(r"(?:(?:pub|abbrev|unfoldable)\s+)*(?:(?:data|record|ruleset)\s+)?(?:pub\s+)?([^\s:(){}]+)(?:\s+[^:]*)?\s:\s")
INNER = re.compile(r"\s+(?:pub\s+)?([^\s:(){}]+)\s:\s")


def snake(name):
    if name[:1].isupper():
        return name
    name = name.replace("-", "_")
    return re.sub(r"(?<=[A-Za-z0-9])_?([A-Z])", lambda m: "_" + m.group(1).lower(), name)


def lemma_files():
    return sorted(glob.glob("crates/*/specs/*.antt") + glob.glob("crates/*/proofs/*.antt"))


def walk_files():
    return sorted(set(glob.glob("crates/*/proofs/**/*.antt", recursive=True)) - set(lemma_files()))


def declared():
    names = set()
    for path in lemma_files():
        for line in open(path):
            if line.startswith("--"):
                continue
            found = INNER.match(line) if line.startswith(" ") else DECLARED.match(line)
            if found:
                names.add(found.group(1))
    return names


# All declared names as they are afterwards.
PLAIN = set()

# Names that port.py had turned already, so that a lemma or field and a definition fall together.
TURNED = ["in_use", "all_pass", "entry_in", "free_all", "in_order", "root_stands"]


def renaming():
    names = declared()
    together = collections.defaultdict(set)
    for name in names:
        together[snake(name)].add(name)
    table = {}
    for plain, group in together.items():
        defined = sorted(n for n in group if "-" not in n)
        for name in group:
            to = plain
            if len(group) > 1 and "-" in name and defined:
                to = plain + "_lem"
            if name in TURNED and len(group) > 1:
                to = plain + "_lem"
            if to != name:
                table[name] = to
    # Names of no declaration: variables of a lemma.
    for name in ["imageTable", "firstOnes", "holdingNew", "bestBelow", "othersBelow", "at-end", "askedBy", "parts-there",
                 "stripAsked", "legal-square", "groupGrowth", "isOne", "not-before", "set-in", "at-space", "next-first",
                 "turned-away"]:
        table.setdefault(name, snake(name))
    return table


def outside(text):
    """What a file imports from elsewhere, or from what the prover makes: these names stay."""
    names = set()
    for line in text.split("\n"):
        if re.match(r"(pub )?(ghost )?use ", line):
            own = re.match(r"(?:pub )?(?:ghost )?use Rattle\.(\w+)\.(specs|proofs)\.(\w+)(\.\w+)?", line)
            made = own and own.group(2) == "proofs" and own.group(4)
            if not own or own.group(1) == "std" or own.group(3) == "declared" or made:
                names |= set(NAME.findall(line.split("{", 1)[1])) if "{" in line else set()
                alias = re.search(r" as ([^\s;]+)", line)
                if alias:
                    names.add(alias.group(1))
    return names


def turn(text, table, keep):
    def one(m):
        name = m.group(0)
        if name in keep:
            return name
        return table.get(name, name)
    return NAME.sub(one, text)


def turn_ticks(text, table):
    """Names within backticks: also those that port.py had turned where they are declared, and not where they are spoken of."""
    def one(m):
        name = m.group(0)
        return table.get(name) or (snake(name) if snake(name) in PLAIN else name)
    return re.sub(r"`[^`\n]+`", lambda m: NAME.sub(one, m.group(0)), text)


def split_line(line, mark):
    """Code before a comment, and the comment. A mark within a text is none."""
    in_text = False
    for i, ch in enumerate(line):
        if ch == '"':
            in_text = not in_text
        if not in_text and line.startswith(mark, i) and (i == 0 or line[i - 1] == " "):
            return line[:i], line[i:]
    return line, ""


def turn_code(code, table, keep):
    parts = re.split(r'("(?:[^"\\]|\\.)*")', code)
    return "".join(p if p.startswith('"') else turn(p, table, keep) for p in parts)


def turn_antt(path, table):
    text = open(path).read()
    keep = outside(text)
    out = []
    for line in text.split("\n"):
        code, comment = split_line(line, "--")
        out.append(turn_code(code, table, keep) + turn_ticks(comment, table))
    write(path, text, "\n".join(out))


def turn_walk(path, table):
    """A proof of a function: its own goals and its modules' paths keep their names."""
    text = open(path).read()
    keep = outside(text)
    for line in text.split("\n"):
        found = DECLARED.match(line)
        if found and not line.startswith((" ", "--")):
            keep.add(found.group(1))
    table = {k: v for k, v in table.items() if k not in TURNED or re.search(r"^use Rattle\.\w+\.specs\.[^\n]*[{ ,]" + k + r"[,} ]", text, re.M)}
    out = []
    for line in text.split("\n"):
        code, comment = split_line(line, "--")
        if re.match(r"use Rattle\.\w+\.proofs\.[a-z]", code):
            out.append(line)
            continue
        out.append(turn_code(code, table, keep) + turn_ticks(comment, table))
    write(path, text, "\n".join(out))


def turn_clauses(text, table):
    keep = outside(text)
    plain = {k: v for k, v in table.items() if k not in TURNED}
    out, depth = [], 0
    for line in text.split("\n"):
        code, comment = split_line(line, "//")
        if depth > 0 or re.match(r"\s*((old|new): )?\s*(ghost use |pub ghost |ghost |requires|ensures)", code):
            out.append(turn_code(code, plain, keep) + turn_ticks(comment, plain))
            depth += code.count("{") - code.count("}")
            depth = max(depth, 0)
        else:
            out.append(code + turn_ticks(comment, plain))
    return "\n".join(out)


def turn_rt(path, table):
    text = open(path).read()
    write(path, text, turn_clauses(text, table))


def turn_edit(path, table):
    text = open(path).read()
    if re.search(r"^file: specs", text, re.M):
        lines = [turn_code(l, table, set()) if l.startswith(("old:", "new:")) else l for l in text.split("\n")]
        write(path, text, "\n".join(lines))
    else:
        write(path, text, turn_clauses(text, table))


def turn_page(path, table):
    text = open(path).read()
    plain = {k: v for k, v in table.items() if k not in TURNED}
    write(path, text, turn_ticks(text, plain))


def write(path, before, after):
    if before != after:
        open(path, "w").write(after)


def main():
    PLAIN.update(snake(name) for name in declared())
    table = renaming()
    for path in lemma_files():
        turn_antt(path, table)
    for path in walk_files():
        turn_walk(path, table)
    for path in sorted(glob.glob("crates/*/src/**/*.rt", recursive=True)):
        turn_rt(path, table)
    for path in sorted(glob.glob("crates/*/must-fail/*.edit")):
        turn_edit(path, table)
    for path in ["README.md"] + sorted(glob.glob("docs/**/*.md", recursive=True)):
        turn_page(path, table)
    print(f"{len(table)} names")


if __name__ == "__main__":
    main()
