#!/usr/bin/env python3
"""Brings this repository's own definitions and lemmas to today's spelling: words in snake case, facts and types in camel case.

usage: tools/respell.py        at the top of the repository, once, after the kit's own scripts and before any edit by hand

A name is this repository's if a file of specs/ or proofs/ declares it and it is no goal or invariant of a function (those are
the kit's, and stand as `goal.NAME`). It is turned where the file declares it or imports it from here, and nowhere else: a name
of the library that is spelled alike stays. Functions of src/, strings, inputs and outputs stay. It prints each name that it
turned, and stops before it writes anything if two names would fall together.
"""

import glob
import os
import re
import sys

WORD = re.compile(r"--[^\n]*|\"(?:[^\"\\\n]|\\.)*\"|«[^»]*»|[^\s(){}.;,@\"«»\[\]]+")
DECLARED = re.compile(r"^\s*(?:(?:abbrev|unfoldable|opaque|pub|data|record)\s+)*([^\s:(){}]+)(?:\s[^:=]*)?\s:\s(.*)", re.M)
USE = re.compile(r"^use\s+([^\s{]+?)\.?\{([^}]*)\}|^use\s+(\S+)\s+as\s+\S+", re.M)
GHOST_USE = re.compile(r"ghost use\s+([^\s{]+?)\.\{([^}]*)\};")
OWN = re.compile(r"Rattle\.(\w+)\.(?:specs|proofs)\.(?!declared)")
# Names that an import of src/ gives, and that the kit's script took for a lemma's.
ALIASES = {"value_of_lem": "value_of"}
# Facts that were spelled as words, with the module that declares each. A clause's label or a record's field of that name stays.
FACTS = {"further": "Rattle.reading.specs.Tokens", "onward": "Rattle.reading.specs.Walks", "behind": "Rattle.reading.specs.Walks"}


def respelled(name):
    if "-" not in name:
        return name
    if name[0].isupper():
        return "".join(part[0].upper() + part[1:] for part in name.split("-"))
    return name.replace("-", "_")


def read(path):
    with open(path, encoding="utf-8") as it:
        return it.read()


def crates():
    return {os.path.basename(c) for c in glob.glob("crates/*")}


def declares(text):
    """The names that an .antt file declares, and those among them that are fields of a record."""
    names, fields, inside = set(), set(), False
    for line in text.splitlines():
        m = DECLARED.match(line)
        if m and not line.lstrip().startswith("--") and not m[2].startswith("goal."):
            name = m[1]
            if re.match(r"(pub )?record ", line):
                inside = True
            elif not line.startswith(" "):
                inside = False
            elif inside and line.startswith("  "):
                fields.add(name)
            names.add(name)
        elif line and not line.startswith(" "):
            inside = bool(re.match(r"(pub )?record ", line))
    return names, fields


def imports(text, here):
    own, others = set(), set()
    for m in USE.finditer(text):
        if m[1] is None:
            continue
        items = {item.split(" as ")[0].strip() for item in m[2].replace("\n", " ").split(",")}
        crate = OWN.match(m[1] + ".")
        (own if crate and crate[1] in here else others).update(items)
    return own, others


def turn(text, table, fields, may=lambda at: True):
    def one(m):
        word = m[0]
        if word.startswith('"'):
            return word
        if word.startswith("--"):
            return re.sub(r"`([^`]*)`", lambda s: "`" + table.get(s[1], s[1]) + "`", word)
        bare = word.strip("«»")
        behind_dot = text[m.start() - 1 : m.start()] == "."
        if not may(m.start()):
            return word
        if behind_dot:
            # A path through a module of this repository, or a field of a record of it.
            path = re.search(r"Rattle\.\w+\.(?:specs|proofs)(?:\.\w+)*\.$", text[: m.start()])
            if not path and bare not in fields:
                return word
        elif bare not in table:
            return word
        return table.get(bare, word) if bare in table else word

    return WORD.sub(one, text)


def facts_in(path, text, item):
    """The facts that a file declares or imports, each with its new spelling."""
    file = lambda module: "crates/{1}/{2}/{3}.antt".format(*module.split("."))
    of = {module for module in FACTS.values() if path == file(module)}
    found = {n for n, module in FACTS.items() if module in of}
    for m in item.finditer(text):
        if m[1]:
            names = re.findall(r"[\w-]+", m[2])
            found |= {n for n, module in FACTS.items() if module == m[1] and n in names}
    return {n: n.capitalize() for n in found}


def turn_facts(text, facts, whole, may=lambda at: True):
    for old, new in facts.items():
        after = r"" if whole else r"(?!\s*[=:])"
        code = lambda at: "--" not in text[text.rfind("\n", 0, at) + 1 : at]
        text = re.sub(rf"(?<![\w.'-]){old}(?![\w'-]){after}", lambda m: new if may(m.start()) and code(m.start()) else m[0], text)
    return text


def main():
    here = crates()
    files = sorted(glob.glob("crates/*/specs/**/*.antt", recursive=True) + glob.glob("crates/*/proofs/**/*.antt", recursive=True))
    texts = {f: read(f) for f in files}
    declared = {f: declares(t) for f, t in texts.items()}
    every = set().union(*(names for names, _ in declared.values()))
    every_field = set().union(*(fields for _, fields in declared.values()))
    table = {n: respelled(n) for n in every if respelled(n) != n}
    for f, (names, _) in declared.items():
        new = [respelled(n) for n in names]
        twice = sorted({n for n in new if new.count(n) > 1})
        if twice:
            sys.exit(f"{f}: these names fall together: {', '.join(twice)}")
    written = {}
    for f, text in texts.items():
        own, others = imports(text, here)
        mine = {n: table[n] for n in (declared[f][0] | own) - others if n in table}
        fields = {n for n in every_field if n in table}
        clash = {mine[n] for n in mine if n not in fields} & (others | (declared[f][0] - set(mine)) | (own - set(mine)))
        if clash:
            print(f"look: {f}: {', '.join(sorted(clash))} is now spelled as another name in this file")
        facts = facts_in(f, text, USE)
        text = turn_facts(text, facts, any(f.endswith("/" + m.split(".")[-1] + ".antt") for m in FACTS.values()) and "/specs/" in f)
        written[f] = turn(text, {**mine, **{n: table[n] for n in fields}}, fields)
    for f in sorted(glob.glob("crates/*/src/**/*.rt", recursive=True)):
        text = read(f)
        own, mine = set(), {}
        for m in GHOST_USE.finditer(text):
            crate = OWN.match(m[1] + ".")
            if crate and crate[1] in here:
                for item in m[2].replace("\n", " ").split(","):
                    name, _, alias = item.strip().partition(" as ")
                    own.add(name.strip("«»"))
                    if alias:
                        alias = alias.strip("«»")
                        mine[alias] = ALIASES.get(alias, respelled(alias))
        # Each is turned into a plain word, so that it needs no quotes.
        mine.update({n: table.get(n, n) for n in own})
        # Names without a dash are turned in imports and clauses alone: a word of the code may be spelled alike.
        # A clause's own label stays.
        spans = [m.span() for m in re.finditer(r"ghost use[^;]*;|ghost (?!use)[^\n]*", text)]
        spans += [m.span(1) for m in re.finditer(r"(?:requires|ensures)\s*\w*\s*(\{[^\n]*)", text)]
        # A fact is as long as the word was, so that the places stay.
        inside = lambda at: any(a <= at < b for a, b in spans)
        text = turn_facts(text, facts_in(f, text, GHOST_USE), True, inside)
        written[f] = turn(text, mine, set(), inside)
    for f, text in written.items():
        if text != read(f):
            with open(f, "w", encoding="utf-8") as it:
                it.write(text)
    for n in sorted(table):
        print(f"{n}\t{table[n]}")
    for n in sorted(FACTS):
        print(f"{n}\t{n.capitalize()}")


main()
