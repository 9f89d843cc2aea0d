#!/usr/bin/env python3
"""The places that docs/DESIGN-PASS.md counts, in crates/*/src. Arguments: a commit (else the files as they are), then words of
what to list (else only counts)."""
import re
import subprocess
import sys


def sources(commit):
    """Each source file and its text."""
    if commit:
        names = subprocess.run(['git', 'ls-tree', '-r', '--name-only', commit, 'crates'], capture_output=True, text=True, check=True).stdout.split()
    else:
        names = subprocess.run(['git', 'ls-files', 'crates'], capture_output=True, text=True, check=True).stdout.split()
    for name in names:
        if '/src/' in name and name.endswith('.rt'):
            if commit:
                yield name, subprocess.run(['git', 'show', f'{commit}:{name}'], capture_output=True, text=True, check=True).stdout
            else:
                yield name, open(name, encoding='utf-8').read()


def code(text):
    """The text with comments and clauses blanked, line for line."""
    lines = []
    for line in text.split('\n'):
        bare = line.strip()
        clause = bare.startswith(('//', 'requires', 'ensures', 'ghost', '× ', '→ ', '(lent'))
        lines.append('' if clause else line.split(' // ')[0])
    return '\n'.join(lines)


def by_line(pattern):
    def find(text):
        return [(text.count('\n', 0, m.start()) + 1, m.group(0).strip().split('\n')[0]) for m in re.finditer(pattern, text, re.M)]
    return find


def option_enums(text):
    """Enums of two cases, of which one has no fields."""
    for m in re.finditer(r'enum (\w+) \{\n((?:    .*\n)+?)\}', text):
        cases = re.findall(r'^    (\w+)([({]?)', m.group(2), re.M)
        if len(cases) == 2 and sorted(bool(c[1]) for c in cases) == [False, True]:
            yield text.count('\n', 0, m.start()) + 1, 'enum ' + m.group(1)


def flag_structs(text):
    """Structs with a flag and a value beside it."""
    for m in re.finditer(r'struct (\w+) \{\n((?:    .*\n)+?)\}', text):
        fields = re.findall(r'^    (?:pub )?(\w+): (.*),$', m.group(2), re.M)
        flags = [name for name, kind in fields if kind == 'bool']
        if flags and len(fields) > len(flags):
            yield text.count('\n', 0, m.start()) + 1, f'struct {m.group(1)}: {", ".join(flags)}'


def functions(text):
    for m in re.finditer(r'^( *)(?:pub )?(?:extern "C" )?fn (\w+)[^\n]*(?:\n(?!\1\}).*)*\n\1\}', text, re.M):
        yield text.count('\n', 0, m.start()) + 1, m.group(2), m.group(0)


def shape(body):
    """A function's text with each name and number alike."""
    body = body[body.index('{'):]
    return re.sub(r'\s+', ' ', re.sub(r'\b\d[\w.]*\b', '0', re.sub(r'\b(?!let\b|mut\b|if\b|else\b|while\b|for\b|in\b|match\b|return\b|fn\b|as\b)[A-Za-z_]\w*', 'x', body)))


POINTS = {
    '1a an enum of the shape of Option': option_enums,
    '1b a flag with a value beside it': flag_structs,
    '1c a number that stands for none': by_line(r'return 8;|== 8 \{|return 10;|== 10 \{|\bnumber == 0\b|\.kind [!=]= 0\b|number: 0,|kind: 0,\n +own|stop != 0'),
    '1d a number for a kind, a part, a state or a refusal': by_line(
        r'\b(kind|letter|role|place|stop)\)? (<|>=|==|!=) (\d+|b\'.\')|^ +(?:0b)?\d[\d_]*(?:\.\.=\d+)? =>|\bkind: \d|place: \d|stop: \d|\.\w*kind / |KIND_UNIT [!=]= |\bparts\(|bits(?: / \d)? %'),
    '3 a loop that counts an index by hand': by_line(r'^ +while .*\{|^ +for \w+ in \w+\.\.[^{]*\{'),
    '4a zeros and copies written field by field': by_line(r'Entry \{\s*key: 0,\s*val: 0,?\s*\}|Row \{\s*batch: 0,|^ +(\w+): \w+\.\1,'),
    '4b comparison or conversion by a function': by_line(r'^ *(?:pub )?fn (?:same\w*|refusal_number|reason_of|first_of|second_of|wide|kind_of|kind_at|kind_number|both|is_there|value_in|digit_of)\b'),
    '5a an area with its count of pages or slots, as parameters': by_line(r'\b(?:wp|sp|pages|wl|sl|log)\b: &(?:mut )?\[u8\],\s*(?:\w+: &(?:mut )?\[u8\],\s*)*[nm]: usize'),
    '5b rows and marks as parameters': by_line(r'rows: \[Row; 8\],\s*(?:mut )?marked: \[bool; 8\]'),
    '5c entries with their count, as parameters': by_line(r'\b[ef]s: \[Entry; ROOM\],\s*[nm]: u(?:8|size)'),
    '6 a sorted list searched by hand': by_line(r'\bfind\(es, '),
    '7 a switch on which step to run': by_line(r'match (?:kind|role|r\.kind|t\.kind|command|c) \{'),
}


def twins(sources_):
    """Functions of one shape, of at least four lines, but those that C calls."""
    kinds = {}
    for name, text in sources_:
        for line, fn, body in functions(text):
            if body.count('\n') >= 5 and 'extern "C"' not in body:
                kinds.setdefault(shape(body), []).append((name, line, fn))
    return [group for group in kinds.values() if len(group) > 1]


def main(args):
    commit = args[0] if args and re.fullmatch(r'[0-9a-f]{7,40}', args[0]) else None
    words = args[1:] if commit else args
    texts = [(name, code(text)) for name, text in sources(commit)]
    for point, find in POINTS.items():
        found = [(name, *place) for name, text in texts for place in find(text)]
        print(f'{len(found):4} {point}')
        if any(point.startswith(word) for word in words):
            for name, line, what in found:
                print(f'       {name[7:]}:{line}: {what}')
    groups = twins(texts)
    print(f'{sum(len(g) for g in groups):4} 2 functions of one shape, in {len(groups)} groups')
    if '2' in words:
        for group in groups:
            print('       ' + ', '.join(f'{name.split("/")[1]}: {fn}' for name, _, fn in group))


if __name__ == '__main__':
    main(sys.argv[1:])
