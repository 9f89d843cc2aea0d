#!/usr/bin/env python3
"""Turns the Proof.antt files of crates into Invariants.antt and Answers.antt, by the names that rt check lists.

usage: tools/port/answers.py NAMES.json CRATE-FOLDER [FUNCTION..]

NAMES.json is what 'rt check --generated DIR --old-names' wrote for the crate. It keeps the old file as Proof.antt.old beside the new ones, and
prints what it could not place.
"""

import json
import os
import re
import sys

WORD = r"[^\s(){}\[\].,;:\"`λ]+"


def norm(x):
    return re.sub(r"^is(?=place-)", "", re.sub(r"[_-]", "-", x).lower())


def blocks(text):
    """The comment at the head, the use lines, and each declaration as (name, type, unfolding, definition)."""
    lines = text.split("\n")
    head, uses, decls = [], [], []
    i = 0
    while i < len(lines) and (lines[i].startswith("--") or not lines[i].strip()):
        if lines[i].strip():
            head.append(lines[i])
        i += 1
    cur = None
    for line in lines[i:]:
        if line.startswith("use "):
            uses.append(line)
            continue
        m = re.match(r"((?:abbrev |pub |unfoldable )*)(" + WORD + r") :(?:\s|$)(.*)", line)
        if m and not line.startswith(" "):
            cur = dict(marks=m.group(1), name=m.group(2), type=[m.group(3)], unfolding=None, body=[])
            decls.append(cur)
            continue
        if cur is None:
            if line.strip():
                head.append(line)
            continue
        if line.startswith("unfolding ") and not cur["body"]:
            cur["unfolding"] = line
        elif not cur["body"] and line.startswith("  "):
            cur["type"].append(line)
        else:
            cur["body"].append(line)
    return head, uses, decls


def top_arguments(text):
    """The arguments of a call, split at the top level."""
    out, depth, cur = [], 0, ""
    for ch in text:
        if ch in "([{":
            depth += 1
        if ch in ")]}":
            depth -= 1
        if ch.isspace() and depth == 0:
            if cur:
                out.append(cur)
            cur = ""
        else:
            cur += ch
    if cur:
        out.append(cur)
    return out


class Turn:
    """The old names of a function's goals and steps, and today's."""

    def __init__(self, entry, said):
        self.entry = entry
        self.said = said
        self.needs = entry["needs"]
        self.by_old = {norm(o): n for o, n in self.needs}
        for o, n in self.needs:
            for old, new in (("", "overflow-"), ("", "nonzero-"), ("index-", "bounds-"), ("part-", "slice-bounds-"), ("shared-slice-read-", "bounds-"), ("slice-write-", "bounds-"), ("ghost-", "invariant-of-")):
                if norm(o).startswith(old):
                    self.by_old.setdefault(new + norm(o)[len(old):], n)
        self.places = {p[0]: p for p in entry["places"]}
        self.at = {n: p[0] for (_, n), p in zip(self.needs, entry["asked_at"])}
        self.chain = []

    def goal(self, name):
        """Steps are looked up from this goal's place on."""
        self.chain = []
        place = self.at.get(name)
        while place in self.places:
            self.chain.append(self.places[place])
            place = self.places[place][1]
        if not self.chain:
            self.chain = self.entry["places"]

    def step(self, old):
        f = norm(old)
        for g in (f, re.sub(r"-lem(\d*)$", r"\1", f)):
            for _, _, (fo, fn), callee, renames in self.chain:
                if fo and norm(fo) == g:
                    return fn, callee, {norm(a): b for a, b in renames}
        return None

    def arm(self):
        for _, _, (fo, fn), _, _ in self.chain:
            if re.match(r"in-", fn):
                return fn
        return None

    def path(self, m):
        """A path that starts at the answer's variable: c.before.X.Y..."""
        parts = m.group(0).split(".")
        var, rest = parts[0], [p for p in parts[1:] if p != "before"]
        if not rest:
            return var
        found = self.step(rest[0])
        if found is None:
            rest[0] = rest[0].replace("well-formed", "well_formed").replace("type-inv", "type_inv")
            if rest[0] not in ("args", "requires", "ranges", "type_inv", "utf8", "well_formed"):
                self.said.append(f"no step {rest[0]}")
            return ".".join([var] + rest)
        new, callee, renames = found
        rest2 = rest[1:]
        if len(rest2) == 1 and re.match(r"keys\d*$", rest2[0]):
            arm = self.arm()
            if arm:
                return f"{var}.{arm}.is"
            return f"{var}.in_default.in_default-own.{rest2[0]}"
        if rest2 == ["given", "1"] and re.search(r"-\d+$", new) and self.arm():
            return f"{var}.{self.arm()}.is"
        if rest2 and norm(rest2[0]) in renames:
            rest2 = [renames[norm(rest2[0])]] + rest2[1:]
        if len(rest2) > 1 and rest2[0] == "new" and rest2[1].isdigit():
            params = self.entry["params"].get(callee or "", [])
            k = 1
            while k < len(rest2) and rest2[k] == "1":
                k += 1
            if k - 1 < len(params):
                rest2 = ["new", params[k - 1]] + rest2[k + 1:]
            else:
                self.said.append(f"new.{k} of {rest[0]}")
        if len(rest2) > 1 and rest2[0] == "auto" and re.match(r"[01]$", rest2[1]):
            k = 1
            while k < len(rest2) and rest2[k] == "1":
                k += 1
            lent = lent_by(callee)
            if k - 1 < len(lent):
                rest2 = ["auto", lent[k - 1]] + rest2[k + 1:]
        return ".".join([var, new] + rest2)

    def body(self, lines, var="c"):
        text = "\n".join(lines)
        names = [var]
        self.var = var
        # a let of a path that ends at a step, whose own parts are named after parameters
        for name in names:
            text = re.sub(r"(?<![\w.'-])" + re.escape(name) + r"(?:\.[A-Za-z_0-9'-]+)+", self.path, text)
        # let x = c.f.new in .. x.0
        for m in re.finditer(r"let (" + WORD + r") = " + re.escape(var) + r"\.([A-Za-z_0-9'-]+)(\.new)? in", text):
            alias, step, new = m.group(1), m.group(2), m.group(3)
            callee = None
            for old, parent, (fo, fn), cl, renames in self.entry["places"]:
                if fn == step:
                    callee = cl
            params = self.entry["params"].get(callee or "", [])
            pre = r"(?<![\w.'-])" + re.escape(alias) + (r"\." if new else r"\.new\.") + r"((?:1\.)*)0(?!\w)"

            def number(k, params=params, new=new, alias=alias):
                i = k.group(1).count("1")
                if i < len(params):
                    return alias + (".new." if not new else ".") + params[i]
                return k.group(0)

            text = re.sub(pre, number, text)
            if not new and lent_by(callee):
                text = re.sub(r"(?<![\w.'-])" + re.escape(alias) + r"\.auto\.((?:1\.)*)0(?!\w)", lambda k, alias=alias, lent=lent_by(callee): alias + ".auto." + lent[k.group(1).count("1")] if k.group(1).count("1") < len(lent) else k.group(0), text)
                text = re.sub(r"(?<![\w.'-])" + re.escape(alias) + r"\.auto\.1(?![\w.])", lambda k, alias=alias, lent=lent_by(callee): alias + ".auto." + lent[1] if 1 < len(lent) else k.group(0), text)
        text = ranges(text)
        text = re.sub(r"simp length-map at " + re.escape(var) + r"\.well_formed[.0-9]*", "search rules", text)
        text = re.sub(r"no_(slide|value) " + re.escape(var) + r"\.[\w-]+\.result " + re.escape(var) + r"\.in_default\.in_default-own\.keys2", lambda m: f"ap {m.group(1)}_of {var}.in_default.is", text)
        return re.sub(r"\.t(\d+)(?![\w'])", lambda m: "." + self.params[int(m.group(1)) - 1] if 0 < int(m.group(1)) <= len(self.params) else m.group(0), text).rstrip("\n")


def ranges(text):
    """What is past a range of numbers is found by omega, which reads the facts that have no name of the source."""
    for m in list(re.finditer(r"\n? *let (\w+) = \w+\.in_default\S*\.rest in", text)):
        text = text.replace(m.group(0), "")
        text = re.sub(r"(?<![\w.])" + m.group(1) + r"(\.\d+)+", "(omega arith)", text)
    if not re.search(r"\(past ", text):
        return text
    out, i = "", 0
    while i < len(text):
        if text.startswith("(past ", i):
            depth = 0
            while True:
                depth += text[i] == "("
                depth -= text[i] == ")"
                i += 1
                if depth == 0:
                    break
            out += "(omega arith)"
        else:
            out += text[i]
            i += 1
    text = re.sub(r"(?<![\w.'-])\w+\.if-[^\s()]+\.(?:true|false)(?![\w.-])", "(omega arith)", out)
    lines = text.split("\n")
    for n, line in reversed(list(enumerate(lines))):
        m = re.match(r"\s*let (\S+) = \S*(?:\.rest|default\S*|\.requires) in$", line)
        if m and not re.search(r"(?<![\w.'-])" + re.escape(m.group(1)) + r"(?![\w'-])", "\n".join(lines[n + 1:])):
            del lines[n]
    return "\n".join(lines)


def rename(text, env):
    """The text with variables named anew, but where a λ or a typed binder has the name."""
    out = []
    scopes = [set()]
    pending = None
    for m in re.finditer(r"λ|[(\[{]|[)\]}]|[^\s(){}\[\].,;:\"`λ]+|.", text, re.S):
        x = m.group(0)
        before = text[m.start() - 1] if m.start() else " "
        if x == "λ":
            pending = set()
        elif x in "([{":
            scopes.append(set(scopes[-1]))
            t = re.match(r"\(([^\s():]+(?: [^\s():]+)*) : ", text[m.start():])
            if t and pending is None:
                scopes[-2].update(t.group(1).split())
                scopes[-1].update(t.group(1).split())
            elif t and pending is not None:
                pending.update(t.group(1).split())
                scopes[-1].update(t.group(1).split())
        elif x in ")]}":
            if len(scopes) > 1:
                scopes.pop()
        elif x == "." and pending is not None and len(text) > m.end() and text[m.end()].isspace():
            scopes[-1].update(pending)
            pending = None
        elif pending is not None and x not in (":",) and not x.isspace() and x not in env_types:
            pending.add(x)
        elif x in env and before != "." and x not in scopes[-1]:
            x = env[x]
        out.append(x)
    return "".join(out)


env_types = {"ℕ", "Bool", "List", ","}


CRATES = "crates"


def lent_by(callee):
    """The parameters of a function that are slices lent by &mut."""
    if not callee:
        return []
    parts = callee.split("::")
    return [x for x in parameters(os.path.join(CRATES, parts[0]), ".".join(parts[1:]), True)]


def parameters(folder, path, lent=False):
    """The names of a function's parameters, from its source; or of those alone that are slices lent by &mut."""
    parts = path.split(".")
    files = [os.path.join(d, f) for d, _, fs in os.walk(os.path.join(folder, "src")) for f in fs if f.endswith(".rt")]
    files.sort(key=lambda p: (os.path.basename(p)[:-3] not in parts[:-1], p))
    for p in files:
        m = re.search(r"\bfn " + re.escape(parts[-1]) + r"(?:<[^>]*>)?\(", open(p, encoding="utf-8").read())
        if m:
            text = open(p, encoding="utf-8").read()[m.end():]
            depth, cur, out = 1, "", []
            for ch in text:
                depth += ch in "([{<"
                depth -= ch in ")]}>"
                if depth == 0:
                    break
                if ch == "," and depth == 1:
                    out.append(cur)
                    cur = ""
                else:
                    cur += ch
            out.append(cur)
            return [re.sub(r"^mut ", "", x.split(":")[0].strip()) for x in out if x.strip() and (not lent or "&mut [" in x)]
    return []


def variables(entry, k):
    (old, new), names = entry["loops"][k]
    changed = entry["changed"][k]
    return new, names, changed


def turn(entry, crate, path, text, params):
    said = []
    t = Turn(entry, said)
    t.params = params
    head, uses, decls = blocks(text)
    spec = decls[-1]
    named = {d["name"]: d for d in decls[:-1]}
    module = f"Rattle.{crate}.proofs.{path}"
    uses = [u for u in uses if not re.search(r"\.(Statement|Tie)(\.|$| )", u)]
    inv, ans = [], []
    answered = set()
    used_in_spec = set()

    def emit(goal, binder, body, unfolding, out=ans):
        if goal in answered:
            said.append(f"twice {goal}")
        answered.add(goal)
        out.append(f"pub {goal} : goal.{goal}\n" + (unfolding + "\n" if unfolding else "") + f"{goal} {binder}= {body}")

    # invariants and measures
    loops = {}
    for k, ((old, new), names) in enumerate(entry["loops"]):
        loops["invariant-" + norm(old)] = ("invariant-" + new, k)
        loops["decreases-" + norm(old)] = ("decreases-" + new, k)
    for d in decls[:-1]:
        ty = " ".join(x.strip() for x in d["type"]).strip()
        m = re.match(r"tie\.((?:invariant|decreases)\S*)", ty)
        if m:
            key = norm(m.group(1))
            if key not in loops:
                said.append(f"no loop {m.group(1)}")
                continue
            goal, k = loops[key]
            _, names, changed = variables(entry, k)
            whole = "\n".join(d["body"]).rstrip()
            b = re.match(re.escape(d["name"]) + r"([^=]*?)\s=\s+(.*)", whole, re.S)
            if not b:
                said.append(f"shape of {d['name']}")
                continue
            params = b.group(1).split()
            slots = [("l.initial." + x if c else "l." + x) for x, c in zip(names, changed)] + ["l." + x for x, c in zip(names, changed) if c]
            if len(params) != len(slots):
                said.append(f"{goal}: {len(params)} variables for {len(slots)}: {params} / {slots}")
                slots = slots + ["l.?"] * len(params)
            env = {p: s for p, s in zip(params, slots) if p != "_"}
            body = rename(b.group(2), env)
            inv.append(f"abbrev pub {goal} : goal.{goal}\n" + (d["unfolding"] + "\n" if d["unfolding"] else "") + f"{goal} l = {body}")
            continue
    # answers by name
    for d in decls[:-1]:
        ty = " ".join(x.strip() for x in d["type"]).strip()
        m = re.match(r"tie\.Need-(\S+)", ty)
        if m:
            key = norm(m.group(1))
            goal = t.by_old.get(key)
            if goal is None:
                said.append(f"no goal {m.group(1)}")
                goal = "LEFT-" + m.group(1)
            whole = "\n".join(d["body"])
            b = re.match(re.escape(d["name"]) + r"([^=]*?)\s=(\s+)(.*)", whole, re.S)
            if not b:
                said.append(f"shape of {d['name']}")
                continue
            binders = b.group(1).split()
            var = binders[0] if binders else "c"
            d["goal"] = goal
            binders = [x for x in binders if x != "κs"]
            t.goal(goal)
            body = t.body([b.group(3)], var)
            sep = "\n    " if "\n" in b.group(2) else ""
            if re.fullmatch(r"search rules", body.strip()):
                continue
            emit(goal, "".join(x + " " for x in binders), sep + body, d["unfolding"])
        elif not ty.startswith("tie."):
            ans.append(d["marks"].replace("pub ", "") + d["name"] + " : " + "\n".join(d["type"]) + "\n" + (d["unfolding"] + "\n" if d["unfolding"] else "") + "\n".join(d["body"]).rstrip())
    # answers in place
    whole = "\n".join(spec["body"])
    m = re.search(r"tie\.close\s*\(tie\.spec\s*(.*)\)\s*(?:where.*)?$", whole, re.S)
    if not m:
        m2 = re.search(r"tie\.close\s+tie\.spec\s*$", whole.strip())
        if not m2:
            said.append("shape of the spec")
    else:
        args = top_arguments(m.group(1))
        args = [a for a in args if not re.match(r"(invariant|decreases)", a)]
        place = align(args, named, t, said)
        for a, goal in zip(args, place):
            b = re.fullmatch(r"\(λ ([^.()]+)\.\s(.*)\)", a, re.S)
            if not b:
                continue
            body = b.group(2).strip()
            if body == "search rules" and not (spec["unfolding"] and goal and goal.startswith("returns")):
                continue
            binders = b.group(1).split()
            t.goal(goal)
            body = t.body([body], binders[0])
            binders = [x for x in binders if x != "κs"]
            if goal is None:
                said.append(f"no place for: λ {' '.join(binders)}. {body[:150]}")
                continue
            emit(goal, "".join(x + " " for x in binders), body, spec["unfolding"])
    return head, uses, inv, ans, said, module


def align(args, named, t, said):
    needs = [n for _, n in t.needs]
    if len(args) == len(needs):
        for a, n in zip(args, needs):
            if a in named and named[a].get("goal", n) != n:
                said.append(f"order: {a} at {n}")
        return needs
    # anchors: named arguments whose goal is known
    place = [None] * len(args)
    anchors = [(-1, -1)]
    for i, a in enumerate(args):
        if a in named and named[a].get("goal") in needs:
            place[i] = named[a]["goal"]
            anchors.append((i, needs.index(place[i])))
    anchors.append((len(args), len(needs)))
    for (i0, n0), (i1, n1) in zip(anchors, anchors[1:]):
        if i1 - i0 == n1 - n0:
            for k in range(1, i1 - i0):
                place[i0 + k] = needs[n0 + k]
    said.append(f"{len(args)} answers for {len(needs)} goals")
    return place


def main():
    names = json.load(open(sys.argv[1]))
    folder = sys.argv[2].rstrip("/")
    only = sys.argv[3:]
    crate = os.path.basename(folder)
    global CRATES
    CRATES = os.path.dirname(folder) or "."
    for d, dirs, files in sorted(os.walk(os.path.join(folder, "proofs"))):
        if "Proof.antt" not in files:
            continue
        path = os.path.relpath(d, os.path.join(folder, "proofs")).replace("/", ".")
        if only and path not in only:
            continue
        key = f"Rattle-{crate}-proofs.{path}.Lts"
        if key not in names:
            print(f"{path}: no names")
            continue
        p = os.path.join(d, "Proof.antt")
        text = open(p, encoding="utf-8").read()
        head, uses, inv, ans, said, module = turn(names[key], crate, path, text, parameters(folder, path))
        os.remove(p)
        if inv:
            with open(os.path.join(d, "Invariants.antt"), "w", encoding="utf-8") as f:
                f.write("\n".join(head + kept(uses, "\n".join(inv)) + [f"use {module}.Given as goal", ""]) + "\n" + "\n\n".join(inv) + "\n")
        if ans:
            with open(os.path.join(d, "Answers.antt"), "w", encoding="utf-8") as f:
                f.write("\n".join(head + kept(uses, "\n".join(ans)) + [f"use {module}.Goals as goal", ""]) + "\n" + "\n\n".join(ans) + "\n")
        for s in said:
            print(f"{path}: {s}")


def kept(uses, text):
    """The use lines with the names that the text has."""
    out = []
    if "search rules" in text and not any("{rules}" in u for u in uses):
        out.append("use borrow.Author.Rules.{rules}")
    if "omega arith" in text and not any("{arith" in u or " arith" in u for u in uses):
        out.append("use Rattle.std.proofs.Common.{arith}")
    toks = set(re.findall(WORD, text))
    for u in uses:
        m = re.match(r"use (\S+?)\.\{(.*)\}$", u)
        if not m:
            a = re.match(r"use \S+ as (\S+)$", u)
            if a and not re.search(r"(?<![\w.])" + re.escape(a.group(1)) + r"\.", text):
                continue
            out.append(u)
            continue
        names = []
        for it in m.group(2).split(","):
            it = it.strip()
            local = it.split(" as ")[-1].strip()
            parts = [x for x in local.split("◌") if x]
            if local in toks or (local == "[]" and "[]" in text) or ("◌" in local and all(x in text for x in parts)):
                names.append(it)
        if names:
            out.append(f"use {m.group(1)}.{{{', '.join(names)}}}")
    return out


if __name__ == "__main__":
    main()
