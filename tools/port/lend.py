#!/usr/bin/env python3
"""Writes the lent areas of a clause as lists: at_entry and at_exit become lent, with .old and .new of a &mut and .now of a &.

Today a parameter that is a & and one that is a &mut have two types, so one definition over both cannot take them.
usage: tools/port/lend.py FILE.rt..
"""
import re
import sys

for p in sys.argv[1:]:
    t = open(p, encoding="utf-8").read()
    out, at = [], 0
    for m in re.finditer(r"\bfn \w+(?:<[^>]*>)?\(", t):
        depth, i = 1, m.end()
        while depth:
            depth += t[i] in "(["
            depth -= t[i] in ")]"
            i += 1
        kinds = dict(re.findall(r"(\w+): (&mut|&)", t[m.end():i]))
        # The clauses end at the brace of the body, alone at the head of a line.
        e = t.find("\n{", i)
        e2 = re.search(r"\n(?:pub |fn )", t[i:])
        end = min(x for x in (e if e >= 0 else len(t), i + e2.start() if e2 else len(t)))

        def one(k, kinds=kinds):
            entry = k.group(1) == "entry"
            args = [a + (".now" if kinds.get(a) == "&" else ".old" if entry else ".new") for a in k.group(2).split()]
            return "lent " + " ".join(args)

        clauses = re.sub(r"at_(entry|exit) (\w+ \w+ \w+ \w+)", one, t[i:end])
        out += [t[at:i], clauses]
        at = end
    new = "".join(out) + t[at:]
    new = re.sub(r"(ghost use Rattle\.area_lengths\.specs\.Lent)\.\{([^}]*)\}", lambda k: k.group(1) + ".{" + ", ".join(dict.fromkeys("lent" if x in ("at_entry", "at_exit") else x for x in re.split(r",\s*", k.group(2)))) + "}", new)
    if new != t:
        open(p, "w", encoding="utf-8").write(new)
        print(p)
