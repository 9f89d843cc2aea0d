"""The system fails once: a flush, write, read, name or opening, or the disk is full. The host is started again and goes on, the power
fails, and everything that was reported, before the fault and after it, must be there."""
import copy
from itertools import product
from random import Random

from plug.book import CASE, Book
from plug.programs import fault, plug
from plug.trials import Register, judged, noted

BEFORE = ['open 1', f'file 1 5 {CASE}', 'commit 1']
DURING = ['list', 'open 2', f'file 2 6 {2 * CASE}', 'commit 2', 'write-out 1', 'open 3', 'remove 3 5', f'file 3 7 {3 * CASE}', 'commit 3']
LAYOUT_READS = 2  # a start's first ones, which find out how the copies stand
AFTER = ['list', 'open 4', f'file 4 8 {4 * CASE}', 'commit 4', 'write-out 1', 'open 5', 'remove 5 6', 'commit 5']


def met(register, book, settings, random):
    """A fault during work, further work, a power failure. Returns what is wrong, or None."""
    book = copy.deepcopy(book)
    run = register.run(DURING, settings)
    noted(book, run, DURING)
    if settings['PLUG_FAULT'] == 'read' and (run.error or len(run.repairs) != (int(settings['PLUG_NUMBER']) > LAYOUT_READS)):
        return f'one copy of a place could not be read: {run.error or run.repairs}'
    last = register.filled() + random.randint(1, 60)
    run = register.run(AFTER, plug(random.choice(('end', last)), 'power', random.randrange(1 << 30)))
    wrong = run.error or (book.settle(run.slides()) if run.slides() is not None else None)
    noted(book, run, AFTER)
    wrong = wrong or judged(book, register.listing(plug('end', 'power', random.randrange(1 << 30))))
    return wrong or judged(book, register.listing())


def is_tried(kind, number, filled):
    """Of a place's two reads one is tried, the first and the second by turns; of the writes that fill the new file and may find the disk
    full, some; all else."""
    if kind == 'read':
        return number % 4 < 2
    return kind != 'full' or number > filled - 8 or number % 61 == 1


def positions(register, most, every):
    """The faults to try: each call of a run by its kind and number, the last first."""
    for kind in ('flush', 'name', 'open', 'read', 'write', 'full'):
        for number in range(most['write' if kind == 'full' else kind], 0, -1):
            if every or is_tried(kind, number, register.filled()):
                yield kind, number


def variants(kind, number):
    """What the system shows after a failed flush, and whether the power fails right after the fault or later."""
    if kind != 'flush':
        return [('keep', number % 2 == 0)]
    return list(product(('keep', 'drop'), (False, True, False, True)))


def failing(host, folder, every=False):
    """Gives for each fault what is wrong, or None."""
    register, book = Register(host, folder, pages=16, slots=128), Book()
    register.forget()
    noted(book, register.run(BEFORE), BEFORE)
    image = register.image()
    register.run(DURING)
    most = register.counts()
    for kind, number in positions(register, most, every):
        for variant, (cache, at_once) in enumerate(variants(kind, number)):
            random = Random(f'{kind} {number} {variant}')
            settings = {**(plug('end', 'power', 0) if at_once else {}), **fault(kind, number, cache, random.randrange(1 << 30))}
            register.put(image)
            yield f'{kind} {number} of {most.get(kind, most["write"])} fails, variant {variant}', met(register, book, settings, random)
