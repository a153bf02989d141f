#!/usr/bin/env python3
"""Gives definitions and lemmas the spelling of today's Rattle: words in snake case, types and modules in camel case.

usage: tools/respell.py [--names SAID]     at the top of the repository

Each line of tools/respell.tsv has an old name, the new one, 'field' where records have it as a field or 'page' where `port.py` has turned
it in the crates' files but not in edits and pages, and the crates in which alone it is turned, where not in all. The script writes the new name
for the old one in crates/: in specs/ and proofs/, in the clauses and the ghost items of src/, in edits, and, between backquotes, in
comments and in the pages. A name is a whole word: the goals and steps that Rattle itself names are longer words, and stay. Strings stay as they are, and
so do functions of src/, exported names, inputs and outputs. It is run once, on files that `port.py` has turned.

--names writes tools/respell.tsv from what the files declare and from SAID, what the last script of `port.py` said, and tells which names
fall together.
"""
import collections
import os
import re
import sys

ROOT = os.path.dirname(os.path.dirname(os.path.realpath(__file__)))
TABLE = os.path.join(ROOT, "tools", "respell.tsv")
WORD = re.compile(r"[^\s(){}\[\].,;:\"@«»`]+")
# lemmas that `port.py` gave the name of a definition, and the crates that speak of them
LEMMAS = {
    "answers_by": "tag_batch",
    "room_of": "law_scopes law_chain",
    "run_lent": "tag_step law_damage law_wellformed",
    "value_in": "scope_push",
}
DECLARED = re.compile(
    r"^(\s*)((?:(?:unfoldable|abbrev|pub|data|record|private)\s+)*)((?:[^\s(){}\[\].,;:\"@=]+\s+)+)(?:[({].*)?:(?:\s|$)"
)


def files(*ends):
    for folder, dirs, names in os.walk(os.path.join(ROOT, "crates")):
        dirs[:] = sorted(d for d in dirs if d != "out")
        for name in sorted(names):
            if name.endswith(ends):
                yield os.path.join(folder, name)


def snake(name):
    name = name.replace("-", "_")
    name = re.sub(r"([a-z0-9])([A-Z])", lambda m: m.group(1) + "_" + m.group(2), name)
    return name.lower()


def declared():
    """Each name that is declared in antt with a dash or a hump, with whether it stands inside something, and each other name."""
    odd, plain = collections.defaultdict(set), set()
    for path in files(".antt"):
        with open(path, encoding="utf-8") as f:
            for line in f:
                if line.lstrip().startswith(("--", "use ", "module ", "open ")):
                    continue
                m = DECLARED.match(line)
                for name in m.group(3).split() if m else ():
                    if "-" in name or re.search(r"[a-z0-9][A-Z]", name):
                        odd[name].add(bool(m.group(1)))
                    else:
                        plain.add(name)
    return odd, plain


def turned_before(said):
    with open(said, encoding="utf-8") as f:
        for line in f:
            m = re.search(r"are in snake case now: ([^:]*)\. Your other", line)
            yield from m.group(1).split(", ") if m else ()


def make_table(said):
    odd, plain = declared()
    new = {}
    taken = collections.defaultdict(list)
    for name in sorted(odd, key=lambda n: ("-" in n, n)):
        if name[0].isupper() and "-" not in name:
            continue
        to = name.replace("-c", "C") if name[0].isupper() else snake(name)
        if taken[to] or to in plain and to not in LEMMAS:
            print(f"falls together: {name} with {(taken[to] or [to])[0]}")
            to += "_lem"
        taken[to].append(name)
        new[name] = to
    with open(TABLE, "w", encoding="utf-8") as f:
        for name in sorted(new):
            f.write(f"{name}\t{new[name]}\t{'field' if True in odd[name] else ''}\t\n")
        for name in sorted(set(turned_before(said)) - set(new)):
            f.write(f"{name}\t{snake(name)}\tpage\t\n")
        for name in sorted(LEMMAS):
            f.write(f"{name}\t{name}_lem\t\t{LEMMAS[name]}\n")
    print(f"{len(new)} names")


def read_table():
    new, fields, only, pages_only = {}, set(), {}, set()
    with open(TABLE, encoding="utf-8") as f:
        for line in f:
            name, to, field, crates = line.rstrip("\n").split("\t")
            new[name] = to
            if field == "page":
                pages_only.add(name)
            elif field:
                fields.add(name)
            if crates:
                only[name] = crates.split()
    return new, fields, only, pages_only


def turn_code(text, new, fields, aliases):
    out, last = [], 0
    for m in WORD.finditer(text):
        word = m.group()
        if word not in new:
            continue
        before = text[: m.start()]
        if before.endswith("."):
            owner = re.search(r"([^\s(){}\[\].,;:\"@«»`]*)\.$", before).group(1)
            if not (owner[:1].isupper() or owner in aliases or word in fields):
                continue
        out += [text[last : m.start()], new[word]]
        last = m.end()
    return "".join(out) + text[last:]


def turn_quoted(text, new):
    return re.sub(
        r"`([^`\n]*)`",
        lambda m: "`" + WORD.sub(lambda w: new.get(w.group(), w.group()), m.group(1)) + "`",
        text,
    )


def turn_lines(text, new, fields, mark):
    aliases = set(re.findall(r"\bas ([^\s(){}\[\].,;:\"]+)", text))
    out = []
    for line in text.split("\n"):
        at = re.search(r"(^|\s)" + mark, line)
        cut = at.start() if at else len(line)
        code, rest = line[:cut], line[cut:]
        pieces = re.split(r'("(?:[^"\\]|\\.)*")', code) if mark == "//" else [code]
        pieces = [p if i % 2 else turn_code(p, new, fields, aliases) for i, p in enumerate(pieces)]
        out.append("".join(pieces) + turn_quoted(rest, new))
    return "\n".join(out)


def pages():
    for folder, dirs, names in os.walk(ROOT):
        dirs[:] = sorted(d for d in dirs if d not in (".git", "target", "out", "crates", "tools"))
        for name in sorted(names):
            if name.endswith(".md") and name != "PORT.md":
                yield os.path.join(folder, name)


def main(argv):
    if len(argv) == 2 and argv[0] == "--names":
        return make_table(argv[1])
    if argv:
        print(__doc__)
        return 2
    every, fields, only, pages_only = read_table()
    changed = 0
    for path in [*files(".antt", ".rt", ".edit"), *pages()]:
        crate = os.path.relpath(path, ROOT).split(os.sep)[1:2] if not path.endswith(".md") else [""]
        turned = path.endswith((".antt", ".rt"))
        new = {a: b for a, b in every.items() if (a not in only or crate[0] in only[a]) and not (turned and a in pages_only)}
        with open(path, encoding="utf-8") as f:
            old = f.read()
        if path.endswith(".md"):
            text = turn_quoted(old, new)
        else:
            in_antt = path.endswith(".antt") or re.match(r"(?s).*^file: \S*\.antt$", old, re.M)
            text = turn_lines(old, new, fields, "--" if in_antt else "//")
        if text != old:
            with open(path, "w", encoding="utf-8") as f:
                f.write(text)
            changed += 1
    print(f"{changed} files changed")
    return 0


if __name__ == "__main__":
    raise SystemExit(main(sys.argv[1:]) or 0)
