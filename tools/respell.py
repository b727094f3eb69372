#!/usr/bin/env python3
"""Spells the repository's own definitions and lemmas as today's Rattle does: words in snake case, types in camel case.

usage: tools/respell.py [--map FILE] [--check]

Run once, at the top, right after the toolkit's port.py. It goes over crates/: the names that .antt files declare, in specs/, in
proofs/ and in a function's own proof (there not the goals, whose names Rattle makes), and the short names that `use .. as` gives
a module. A name of Rust's keeps its spelling, and so does a type, a fact or a constructor (they begin with a capital).
--map FILE writes each old name with its new one. --check writes no source and says which names fall together.
"""
import collections
import os
import re
import sys

WORD = re.compile(r"[^\s(){}.;,@\"«»]+")
DECLARED = re.compile(
    r"^(\s*)((?:(?:pub|abbrev|unfoldable|record|ruleset) )*)"
    r"(?!use |mod |unfolding |where|let |in |--|module )"
    r"([^\s(){}.;,@\"«»]+)(?: \{[^{}\n]*\}| \([^()\n]*\))* (?::|=)(?: (.*))?$"
)
GIVEN = re.compile(r"\buse [^\s;{]+ as ([^\s;]+)")
# a lemma that falls together with a definition gets the ending that a lemma of its function's name has: here those of plain words,
# each with the file that has both
BY_HAND = {
    "crates/alike/proofs/Cases.antt": {"by_side": "by_side_lem"},
    "crates/blame/proofs/Order.antt": {"in_order": "in_order_lem"},
    "crates/blame/proofs/Tests.antt": {"head_ok": "head_ok_lem"},
    "crates/demands/specs/Counted.antt": {"all_known": "all_known_lem"},
    "crates/kinds/proofs/Sheets.antt": {"row_before": "row_before_lem"},
    # a short name that port.py half turned
    "crates/demands/specs/Exact.antt": {"step_Lines": "step_lines"},
}


def files(*endings):
    for top, dirs, names in os.walk("crates"):
        dirs[:] = sorted(d for d in dirs if d not in ("out", "target"))
        for f in sorted(names):
            if f.endswith(endings):
                yield os.path.join(top, f)


def snake(name):
    if name[:1].isupper() or not re.match(r"[a-z]", name):
        return name
    words = re.sub(r"(?<=[a-z0-9])[A-Z]", lambda m: "_" + m[0].lower(), name)
    return words.replace("-", "_").replace("′", "'")


def in_function(path):
    return "/proofs/" in path and path.split("/proofs/", 1)[1].count("/") > 0


def the_map():
    """Each declared name with its new one, and for each file the new names of its short names of modules."""
    found, given = {}, {}
    for path in files(".antt"):
        with open(path, encoding="utf-8") as f:
            for line in f:
                m = DECLARED.match(line.rstrip("\n"))
                if m and not (in_function(path) and m[4] and re.match(r"(tie|goal)\.", m[4])):
                    if not (m[1] and not m[2] and "=" in line.split(m[3], 1)[1][:3]):
                        found[m[3]] = snake(m[3])
                m = GIVEN.search(line)
                if m and snake(m[1]) != m[1]:
                    given.setdefault(path, {})[m[1]] = snake(m[1])
    defined = {b for a, b in found.items() if "-" not in a}
    table = {a: b + "_lem" if "-" in a and b in defined else b for a, b in found.items()}
    return {a: b for a, b in table.items() if a != b}, given


def respelled(text, table, fields=None):
    def one(m):
        behind_dot = fields is not None and text[m.start() - 1 : m.start()] == "."
        return (fields if behind_dot else table).get(m[0], m[0])

    return WORD.sub(one, text)


def turn_antt(text, table, camel, fields):
    out = []
    for line in text.split("\n"):
        code, dashes, note = line, "", ""
        m = re.search(r"(^|(?<=\s))--(?=\s|$)", line)
        if m:
            code, dashes, note = line[: m.start()], line[m.start() : m.end()], line[m.end() :]
        out.append(respelled(code, table, fields) + dashes + respelled(note, camel))
    return "\n".join(out)


def main(argv):
    where = argv[argv.index("--map") + 1] if "--map" in argv else None
    table, given = the_map()
    camel = {a: b for a, b in table.items() if re.search("[A-Z]", a)}
    if where:
        with open(where, "w", encoding="utf-8") as f:
            f.writelines(f"{a}\t{b}\n" for a, b in sorted(table.items()))
    if "--check" in argv:
        for path in files(".antt"):
            here = {**table, **given.get(path, {}), **BY_HAND.get(path, {})}
            with open(path, encoding="utf-8") as f:
                text = re.sub(r"(?m)(^|(?<=\s))--(\s.*)?$", "", f.read())
            text = re.sub(r"Rattle\.[^\s{]+?(?=\.\{|\s|$)", " ", text)
            text = re.sub(r"\.[\w-]+", " ", text)
            back = collections.defaultdict(set)
            for w in WORD.findall(text):
                back[here.get(w, w)].add(w)
            for b, olds in sorted(back.items()):
                if len(olds) > 1:
                    print("fall together:", path, b, "from", *sorted(olds))
        return 0
    for path in files(".antt", ".rt"):
        with open(path, encoding="utf-8") as f:
            text = f.read()
        here = {**table, **given.get(path, {}), **BY_HAND.get(path, {})}
        # in a function's proof a name behind a dot may be one that Rattle makes of the source: it has no lemma's ending
        fields = {a: snake(a) if in_function(path) else b for a, b in table.items()}
        new = turn_antt(text, here, camel, fields) if path.endswith(".antt") else respelled(text, camel)
        if new != text:
            with open(path, "w", encoding="utf-8") as f:
                f.write(new)
    return 0


if __name__ == "__main__":
    sys.exit(main(sys.argv[1:]))
