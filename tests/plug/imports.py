"""Slides imported from two columns of text. The plug is pulled after each event of the import, its calls fail, others come to the name meanwhile:
afterwards there is no register, or one that holds just these slides. What is refused leaves nothing, and is said with its line."""
import os
import shutil
from random import Random

from plug.book import CASE, Book
from plug.creators import FOREIGN, Creator, Held, apart
from plug.programs import fault, plug, run
from plug.trials import Register, judged, noted, recovered

PAGES, SLOTS = 16, 128
SLIDES = {7 * n: CASE + n % CASE for n in range(1, 138)}  # of the 140 that fit
DONE = [f'import: 0 {len(SLIDES)}']
STRIDE, WRITES_APART = 23, 61
OTHER = {2: 2 * CASE}

# Texts, each with the slides in it.
TAKEN = (
    (b'', {}),
    (b'# nothing\n\n \t\r\n', {}),
    (b'5 6', {5: 6}),
    (b'5 6\r\n7 8\r\n', {5: 6, 7: 8}),
    (b'# key;value\n1;2\n\n3 ;\t4\n5,6 \n 7\t \t8\n', {1: 2, 3: 4, 5: 6, 7: 8}),
    (b'0005 0\n4294967295 4294967295\n', {5: 0, 4294967295: 4294967295}),
    (b'#' * 400 + b'\n5 6\n', {5: 6}),
)

# Texts, each with the answer, if there is one, and what is said of a line.
NOT_TWO = 'not two numbers'
LARGE = 'a number is above 4294967295'
REFUSED = (
    (b'5\n', None, f':1: {NOT_TWO}'),
    (b'key;value\n5;6\n', None, f':1: {NOT_TWO}'),
    (b'# one\n\n5 6\n5 6 7\n', None, f':4: {NOT_TWO}'),
    (b'5,;6\n', None, f':1: {NOT_TWO}'),
    (b'5;6;\n', None, f':1: {NOT_TWO}'),
    (b'-5 6\n', None, f':1: {NOT_TWO}'),
    (b'5 0x6\n', None, f':1: {NOT_TWO}'),
    (b'5 6\r7 8\n', None, f':1: {NOT_TWO}'),
    (b'5 6\0\n', None, f':1: {NOT_TWO}'),
    (b'5 6' + b' ' * 400 + b'7\n', None, f':1: {NOT_TWO}'),
    (b'5 6\n4294967296 8\n', None, f':2: {LARGE}'),
    (b'5 99999999999999999999999\n', None, f':1: {LARGE}'),
    (b'5 6\r\n\r\n0 8\r\n', 7, ':3: key 0 stands for an unread label'),
    (b'9 6\n#\n5 6\n0 8\n', 7, ':4: key 0 stands for an unread label'),
    (b'5 6\n\n5 7\n', 9, ':3: the keys do not rise: 5 after 5'),
    (b'5 6\n7 7\n6 8\n1 9\n', 9, ':3: the keys do not rise: 6 after 7'),
    (b'#\n' + b''.join(b'%d 1\n' % n for n in range(1, 200)), 18, ':142: pages are short: at most 140 slides fit 16 pages, and 8040 fit 896'),
)


class Import(Register):
    """A register's file that is to be made, and the text with its slides."""

    def __init__(self, host, folder):
        super().__init__(host, os.path.join(folder, 'drive'), PAGES, SLOTS)
        os.mkdir(os.path.dirname(self.file))
        self.text = os.path.join(folder, 'slides.txt')
        self.write(b''.join(b'%d;%d\n' % slide for slide in SLIDES.items()))

    def write(self, text):
        with open(self.text, 'wb') as file:
            file.write(text)

    def words(self):
        return ('--import', self.text, self.file, self.pages, self.slots)

    def load(self, settings=None):
        return run(self.host, self.words(), [], self.side, {'PLUG_FILE': self.file, **(settings or {})})

    def state(self):
        """What is there, and for each name what any change of it would change."""
        entries = [entry for entry in os.scandir(os.path.dirname(self.file)) if not entry.name.startswith('side')]
        return sorted((entry.name, entry.inode(), entry.stat().st_size, entry.stat().st_mtime_ns) for entry in entries)


def book_of(slides):
    book = Book()
    book.slides = dict(slides)
    return book


def left(register, run, random):
    """An import was made, to its end or not. Returns what is wrong with what is there, or None. Where nothing is, it is made again."""
    if not os.path.exists(register.file):
        if run.lines:
            return f'it answered {run.lines}, and no register is there'
        run = register.load()
        if run.lines != DONE:
            return f'made again, it answered {run.lines}: {run.error}'
    wrong = recovered(register, book_of(SLIDES), random)
    return wrong and wrong.splitlines()[-1]  # a host names each place that is damaged, and then says what it does


def cut(register):
    """The plug pulled here and there while the new file is filled, and after each event from then on."""
    for how, seed in (('kill', 0), ('power', 0), ('power', 1), ('power', 2)):
        after, died = 1, True
        while died:
            random = Random(f'{how} {seed} {after}')
            register.forget()
            run = register.load(plug(after, how, random.randrange(1 << 30)))
            died = run.died
            yield f'{how} {seed} after event {after}', run.error or left(register, run, random)
            after += STRIDE if after + STRIDE < register.filled() - 3 else 1


def failed(register):
    """A flush, write, naming or opening fails, or the disk is full, and then the power fails."""
    register.forget()
    register.load()
    most = register.counts()
    for kind in ('flush', 'name', 'open', 'write', 'full'):
        count = most['write' if kind == 'full' else kind]
        for number in range(count, 0, -WRITES_APART if kind in ('write', 'full') else -1):
            random = Random(f'{kind} {number}')
            register.forget()
            settings = fault(kind, number, random.choice(('keep', 'drop')), random.randrange(1 << 30))
            run = register.load({**plug('end', 'power', 0), **settings})
            wrong = None if run.gave_up and not run.lines else f'it went on, and answered {run.lines}'
            yield f'{kind} {number} of {count} fails', wrong or left(register, run, random)


def steps(register):
    register.forget()
    register.load()
    return apart(open(register.side + '.steps').read().split())


def put_there(register, other, stop):
    """A register of others is copied to the name while the import is held up, unless the import has come before."""
    register.forget()
    held = Held(register, register.words(), [], register.side, stop)
    is_copied = not os.path.exists(register.file)
    if is_copied:
        shutil.copyfile(other, register.file)
    held.finish()
    if is_copied and held.run.lines:
        return f'it answered {held.run.lines}, and another register is there'
    return judged(book_of(OTHER if is_copied else SLIDES), register.listing())


def beside_a_start(register, stop):
    """A host starts on the name, and files a case, while the import is held up. One of them may find that the other has the drive."""
    register.forget()
    held = Held(register, register.words(), [], register.side, stop)
    second = Creator(register, 2)
    held.finish()
    book = book_of(SLIDES if held.run.lines == DONE else {})
    wrong = second.judged(book)
    gave_up = FOREIGN in held.run.error or 'is there already' in held.run.error
    if not wrong and held.run.lines != DONE and not gave_up:
        wrong = held.run.error or f'it answered {held.run.lines}'
    return wrong or judged(book, register.listing())


def others(register):
    """What comes to the name meanwhile, and what was there before."""
    register.forget()
    second = Creator(register, 2)
    copy = os.path.join(os.path.dirname(register.text), 'other')
    shutil.copyfile(register.file, copy)
    before = register.state()
    run = register.load()
    says = f'drive: {register.file} is there already, and stays as it was'
    yield 'the name of a register', None if (run.gave_up, run.error, run.lines) == (True, says, []) else f'it answered {run.lines}: {run.error}'
    yield 'the register that was there', None if register.state() == before else 'it is not as it was'
    yield 'that register afterwards', second.judged(Book()) or judged(book_of(OTHER), register.listing())
    for stop in steps(register):
        yield f'another register put there at step {stop}', put_there(register, copy, stop)
        yield f'a start while the import is at step {stop}', beside_a_start(register, stop)


def texts(register):
    for text, slides in TAKEN:
        register.write(text)
        register.forget()
        run = register.load()
        wrong = None if run.lines == [f'import: 0 {len(slides)}'] else f'{run.lines}: {run.error}'
        yield f'the text {text[:40]}', run.error or wrong or judged(book_of(slides), register.listing())
    for text, answer, says in REFUSED:
        register.write(text)
        register.forget()
        run = register.load()
        got = (run.lines, run.error, run.gave_up, register.state())
        wanted = ([f'import: {answer}'] if answer else [], register.text + says, False, [])
        yield f'the text {text[:40]}', None if got == wanted else f'{got} in place of {wanted}'


def long(register):
    """From 1,000 slides on the host says that it is at work. It reads one slide more than any register takes, and no further."""
    register.pages = 896
    for count, tail, last in ((999, b'', 'import: 0 999'), (1000, b'', 'import: 0 1000'), (8999, b'x\n', 'import: 18')):
        register.write(b''.join(b'%d 1\n' % n for n in range(1, count + 1)) + tail)
        register.forget()
        run = register.load()
        says = [f'{register.text}: {min(count, 8041)} slides are read; {register.file} is being made'] if count >= 1000 else []
        says += [f'{register.text}:8041: pages are short: at most 8040 slides fit 896 pages'] if tail else []
        yield f'{count} slides', None if (run.error.splitlines(), run.lines) == (says, [last]) else f'{run.lines}: {run.error}'
    register.pages = PAGES


def same_name(register):
    """A text whose name a start would write over stays."""
    text, register.text = register.text, register.file + '.new'
    register.forget()
    register.write(b'5 6\n')
    before, run = register.state(), register.load()
    yield 'a text of the name of a new file', None if not run.lines and register.state() == before else 'it was written over'
    register.forget()
    register.text = text


def importing(host, folder):
    """Gives for each try what is wrong, or None."""
    register = Import(host, folder)
    for tries in (cut, failed, others, same_name, texts, long):
        yield from tries(register)
