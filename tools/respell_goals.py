#!/usr/bin/env python3
"""Spells the names that Rattle makes for proofs as the source spells them, in proofs/F/ of the named crates.

usage: tools/respell_goals.py NAME..   at the top of the repository

c.days-in-days, goal.returns-then-is-date, in-ok-token  ->  c.days_in-days, goal.returns-then-is_date, in_ok-token
"""

import glob
import re
import sys

OWN = "from-residual branch-raw in-ok in-err in-default type-inv invariant-of shape-of overflow-add overflow-sub overflow-mul overflow-shl overflow-shr overflow-cast overflow-step nonzero-div nonzero-rem slice-bounds offset-bounds yielded-by".split()
TOKEN = re.compile(r"--[^\n]*|[^\s(){};,\[\]\"]+")


def main():
    for crate in sys.argv[1:]:
        source = "".join(open(f, encoding="utf-8").read() for f in glob.glob(f"crates/{crate}/src/**/*.rt", recursive=True))
        words = {w.strip("_") for w in re.findall(r"\b[A-Za-z]\w*_\w+\b", source)}
        table = {w.replace("_", "-"): w for w in words}
        table.update({w: w.replace("-", "_") for w in OWN})
        rules = [(re.compile(rf"(?<![A-Za-z0-9_]){re.escape(k)}(?![A-Za-z0-9_])"), v) for k, v in sorted(table.items(), key=lambda x: -len(x[0]))]

        def respell(name):
            for pattern, new in rules:
                name = pattern.sub(new, name)
            return name

        for f in glob.glob(f"crates/{crate}/proofs/*/**/*.antt", recursive=True):
            text = open(f, encoding="utf-8").read()
            goals = set(re.findall(r"goal\.([^\s(){};,.]+)", text))
            for m in re.finditer(r"^use \S+\.(?:Goals|Given)\.\{([^}]*)\}", text, re.M):
                goals |= {n.strip() for n in m[1].split(",")}

            def one(m):
                t = m[0]
                if t.startswith("--"):
                    return t
                if t in goals:
                    return respell(t)
                if t.startswith("Rattle.") or "." not in t:
                    return t
                head, *rest = t.split(".")
                return ".".join([head] + [respell(p) for p in rest])

            new = TOKEN.sub(one, text)
            if new != text:
                open(f, "w", encoding="utf-8").write(new)
                print(f)


main()
