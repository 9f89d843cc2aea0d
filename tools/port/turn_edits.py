#!/usr/bin/env python3
"""Turns the edits (crates/*/must-fail, crates/*/wrong, tests/wrong) from the spelling before port.py to today's.

Each edit of specs/ is applied to its file as it was, and the changed file is laid beside the file under another name, in a copy of the repository
as it was. There port.py and respell.py run once over all of it. Then the edit is read off: what differs between the turned file and the turned
changed file, in as few words as the edit had. An edit of src/ keeps its text, and is only compared: its old text must stand in the same function.

An edit that is not as it was at OLD is left alone. Read what it writes: where an edit brings in a name of std, its pair for the import is better
anchored at the head of the line, and a comment that made room for a `use` need not go any more.

usage: python3 tools/port/turn_edits.py OLD PORT [FOLDER]    OLD: the commit before the port; PORT: port.py; FOLDER: where the turned copy is, or is made
"""

import collections
import difflib
import functools
import glob
import os
import re
import subprocess
import sys
import tempfile

sys.dont_write_bytecode = True
HERE = os.path.dirname(os.path.abspath(__file__))
ROOT = os.path.dirname(os.path.dirname(HERE))
sys.path.insert(0, os.path.join(ROOT, "tests"))

from edits import change_text, find_spots, read_edit  # noqa: E402
from refusal.source import functions_at  # noqa: E402

KINDS = "crates/*/must-fail/*.edit", "crates/*/wrong/*.edit", "tests/wrong/*.edit"
NAMED = "at", "falls"
TOKEN = re.compile(r"\n|[^\S\n]+|[\w'’?!·-]+|.")


def read(path):
    with open(path, encoding="utf-8") as f:
        return f.read()


def write(path, text):
    with open(path, "w", encoding="utf-8") as f:
        f.write(text)


def run(*words, where):
    done = subprocess.run(words, cwd=where, capture_output=True, text=True)
    if done.returncode not in (0, 1):
        sys.exit(f"{words}: {done.stdout[-2000:]}{done.stderr[-2000:]}")
    return done.stdout


def edits_of(root):
    return sorted(path for kind in KINDS for path in glob.glob(kind, root_dir=root))


def file_of(path, edit):
    """The edited file's path, from the top of the repository."""
    return edit["file"] if path.startswith("tests/") else os.path.join(*path.split("/")[:2], edit["file"])


def beside(file, number):
    """Where the changed file lies in the copy."""
    return file.removesuffix(".antt") + f"Edit{number}.antt"


def make_copy(old, port, copy):
    """The repository as it was, with a changed file for each edit of specs/, turned."""
    archive = subprocess.run(["git", "archive", old], cwd=ROOT, capture_output=True, check=True).stdout
    subprocess.run(["tar", "-x", "-C", copy], input=archive, check=True)
    for number, path in enumerate(edits_of(copy)):
        edit = read_edit(os.path.join(copy, path))
        file = file_of(path, edit)
        if file.endswith(".antt"):
            text = read(os.path.join(copy, file))
            spots, wrong = find_spots(edit, text)
            if wrong:
                sys.exit(f"{path}, as it was: {wrong}")
            write(os.path.join(copy, beside(file, number)), change_text(text, spots))
    run("git", "init", "-q", where=copy)
    run("git", "add", "-A", where=copy)
    run("git", "-c", "user.name=port", "-c", "user.email=port@localhost", "commit", "-q", "-m", "as it was", where=copy)
    print(run("python3", port, where=copy))
    print(run("python3", os.path.join(HERE, "respell.py"), where=copy))


def tokens(text):
    return TOKEN.findall(text)


def lengths(parts):
    at = [0]
    for part in parts:
        at.append(at[-1] + len(part))
    return at


@functools.cache
def places(before, after):
    """For each place between two words of `before`, the places between words of `after` that it may have become: one, or where words were replaced all
    those between the ends."""
    a, b = tokens(before), tokens(after)
    starts, ends = lengths(a), lengths(b)
    found = collections.defaultdict(set)
    for _, i1, i2, j1, j2 in difflib.SequenceMatcher(None, [soft(x) for x in a], [soft(x) for x in b], autojunk=False).get_opcodes():
        if i2 - i1 == j2 - j1:
            for k in range(i2 - i1 + 1):
                found[starts[i1 + k]].add(ends[j1 + k])
        else:
            for i in range(i1, i2 + 1):
                found[starts[i]].update(ends[j] for j in range(j1, j2 + 1))
    return found


def soft(word):
    return "_" if word.isspace() else word.replace("-", "_")


def hunks(before, after):
    """The lines that differ, as (first, last, first, last)."""
    a, b = before.split("\n"), after.split("\n")
    return [op[1:] for op in difflib.SequenceMatcher(None, a, b, autojunk=False).get_opcodes() if op[0] != "equal"]


def narrow(lines, new_lines, whole, wanted):
    """The shortest old and new text that change `lines` to `new_lines`, begin and end between words, hold the wanted stretch, and stand once."""
    old, new = "\n".join(lines), "\n".join(new_lines)
    start = len(os.path.commonprefix([old, new]))
    end = len(os.path.commonprefix([old[::-1], new[::-1]]))
    end = min(end, len(old) - start, len(new) - start)
    first, last = start, len(old) - end
    if wanted:
        first, last = min(first, wanted[0]), max(last, wanted[1])
    cuts = lengths(tokens(old))
    while True:
        first = max(c for c in cuts if c <= first)
        last = min(c for c in cuts if c >= last)
        old_part, new_part = old[first:last], new[first : len(new) - (len(old) - last)]
        if old_part.strip() and whole.count(old_part) == 1 and ((first, last) == wanted or not ragged(old_part, new_part)):
            return old_part, new_part
        if (first, last) == (0, len(old)):
            return None
        first, last = max(0, first - 1), min(len(old), last + 1)


def ragged(*parts):
    """Whether a text begins or ends with a blank that is not the head of a line."""
    return any(part[:1].isspace() or part[-1:].isspace() for part in parts)


def wanted_stretch(spots, was, now, first, last):
    """Where the edit's old text is in the turned lines `first` to `last`, as the words show it."""
    inside = was.split("\n")
    begin = sum(len(line) + 1 for line in now.split("\n")[:first])
    stretch = "\n".join(now.split("\n")[first:last])
    moved = places(was, now)
    found = []
    for start, end, _ in spots:
        a, b = moved.get(start), moved.get(end)
        if a and b:
            a, b = max(a), min(b)
            if begin <= a < b <= begin + len(stretch):
                found.append((a - begin, b - begin))
    return (min(a for a, _ in found), max(b for _, b in found)) if found else None


def turn_pairs(edit, was, now, changed, today):
    """The edit's pairs as they read today, or None where one doesn't stand once."""
    spots, wrong = find_spots(edit, today)
    if not wrong and change_text(today, spots) == changed:
        return edit["pairs"]
    spots, _ = find_spots(edit, was)
    pairs = []
    lines, new_lines = now.split("\n"), changed.split("\n")
    for a1, a2, b1, b2 in hunks(now, changed):
        if a1 == a2 or b1 == b2:  # lines that are new, or gone: the line before goes with them
            a1, b1 = a1 - 1, b1 - 1
        if a2 - a1 == b2 - b1:
            parts = [(a1 + k, a1 + k + 1, b1 + k, b1 + k + 1) for k in range(a2 - a1)]
        else:
            parts = [(a1, a2, b1, b2)]
        for p1, p2, q1, q2 in parts:
            part = narrow(lines[p1:p2], new_lines[q1:q2], today, wanted_stretch(spots, was, now, p1, p2))
            if part is None:
                return None
            pairs.append(part)
    return pairs


def declared(root):
    """The names that files of specs/ and proofs/ declare."""
    found = set()
    for path in glob.glob(os.path.join(root, "crates/*/specs/**/*.antt"), recursive=True) + glob.glob(os.path.join(root, "crates/*/proofs/**/*.antt"), recursive=True):
        for line in re.findall(r"(?m)^\s*(?:unfoldable |abbrev |pub )*([^\s(){}\[\].,;:\"]+(?: [^\s(){}\[\].,;:\"=]+)*) :(?=\s)", read(path)):
            found.update(line.split())
    return found


def turn_names(text, names):
    """Names of laws and claims, apart by spaces, perhaps each between backquotes and before a colon."""
    def one(m):
        word = m.group(0)
        turned = word.replace("-", "_")
        return turned if turned in names else word
    return re.sub(r"[^\s`:]+", one, text)


def turn_edit(path, pairs, names):
    """The edit's lines with other pairs, in their order, and with today's names."""
    lines, waiting = [], list(pairs)
    for line in read(os.path.join(ROOT, path)).rstrip("\n").split("\n"):
        name, _, text = line.partition(": ")
        if name == "old":
            if waiting is not None:
                for old, new in waiting:
                    lines += ["old: " + old.replace("\n", "¶"), ("new: " + new.replace("\n", "¶")) if new else "new:"]
                waiting = None
        elif name == "new" or line == "new:":
            pass
        elif name in NAMED:
            lines.append(f"{name}: {turn_names(text, names)}")
        else:
            lines.append(line)
    return "\n".join(lines) + "\n"


def main():
    old, port = sys.argv[1:3]
    copy = sys.argv[3] if len(sys.argv) > 3 else tempfile.mkdtemp(prefix="edits-")
    os.makedirs(copy, exist_ok=True)
    if not os.listdir(copy):
        make_copy(old, os.path.abspath(port), copy)
    names = declared(ROOT)
    counts = collections.Counter()
    for number, path in enumerate(edits_of(copy)):
        here = os.path.join(ROOT, path)
        before = run("git", "show", f"{old}:{path}", where=ROOT)
        if read(here) != before:
            counts["not as it was, left alone"] += 1
            continue
        edit = read_edit(here)
        file = file_of(path, edit)
        today = read(os.path.join(ROOT, file))
        was = run("git", "show", f"{old}:{file}", where=ROOT)
        spots, wrong = find_spots(edit, today)
        if not file.endswith(".antt"):
            then = find_spots(edit, was)[0]
            at, at_then = (functions_at(edit["file"], text, where) for text, where in ((today, spots), (was, then)))
            counts["of src/, as it stands" if not wrong and at == at_then else "left"] += 1
            if wrong or at != at_then:
                print(f"left: {path}: {wrong or f'{at_then} is {at}'}")
            continue
        now, changed = read(os.path.join(copy, file)), read(os.path.join(copy, beside(file, number)))
        if now != today:
            print(f"look: {path}: {file} is not as port.py leaves it")
        pairs = turn_pairs(edit, was, now, changed, today)
        if not pairs:
            print(f"left: {path}: no text that stands once")
            counts["left"] += 1
            continue
        text = turn_edit(path, pairs, names)
        counts["of specs/, " + ("turned" if text != before else "as it stands")] += 1
        write(here, text)
    print(", ".join(f"{count} {what}" for what, count in sorted(counts.items())))


main()
