"""The names that the prover makes of a function's code, for its proof to cite. That of a test has the test's words and literals."""
import json
import os
import re

INTERFACE = b'--@ interface '  # the line of a checked module that lists its names
TEST = 'if-'
JOIN = 'By-'  # a step where paths meet: it repeats their tests, and has these in its own name
TOKEN = re.compile(r'[^\s(){}\[\].,;:"`]+')


def interface(folder, crate, function):
    """The names in the module that the prover made of a function's steps, as its last check left it."""
    path = os.path.join(folder or '', f'Rattle-{crate}-proofs.{function.replace("::", ".")}.Lts.oantt')
    if not os.path.exists(path):
        return {'exports': [], 'globals': []}
    return json.loads(next(line for line in open(path, 'rb') if line.startswith(INTERFACE))[len(INTERFACE):])


def needs(folder, crate, function):
    """All that has to be shown of a function, in order, by names that do not hang on the words of its tests."""
    exports = sorted(interface(folder, crate, function)['exports'], key=lambda name: name['global'])
    return [name['spelling'] for name in exports if name['spelling'].startswith('Need-')]


def tests(folder, crate, function):
    """The name of each test of a function, by its place among the steps."""
    found = {}
    for name in interface(folder, crate, function)['globals']:
        step, _, field = name.get('name', '').partition('.')
        if field.startswith(TEST) and not step.startswith(JOIN) and 'fieldfn' in (name.get('kernel') or {}):
            found[step, name['kind']['index']] = field
    return found


def turned(before, after):
    """What a test was called and is called, where all tests are there as before."""
    if before.keys() != after.keys() or before == after:
        return {}
    return {name: after[place] for place, name in before.items()}


def turn(folder, function, other):
    """Turns the names of tests in the files of a function's proof, also in the names of goals behind them."""
    after = {name.removeprefix(TEST): to.removeprefix(TEST) for name, to in other.items()}
    words = '|'.join(re.escape(word) for word in sorted(after, key=len, reverse=True))
    part = re.compile(rf'(?<![^-+])(if|then|else)-({words})(?![^-+])')

    # What is known of a test `!x` has a second name, which that of a test `x` has not.
    plain = '|'.join(re.escape(to) for name, to in other.items() if name.startswith(TEST + 'not-') and not to.startswith(TEST + 'not-'))
    raw = re.compile(rf'\.({plain})\.(true|false)-raw(?![^\s)\]}},;])') if plain else None

    def turned_token(token):
        return part.sub(lambda found: f'{found[1]}-{after[found[2]]}', token[0])

    top = os.path.join(folder, 'proofs', *function.split('::'))
    for file in os.listdir(top) if other and os.path.isdir(top) else ():
        if file.endswith('.antt'):
            path = os.path.join(top, file)
            text = TOKEN.sub(turned_token, open(path, encoding='utf-8').read())
            open(path, 'w', encoding='utf-8').write(raw.sub(r'.\1.\2', text) if raw else text)
