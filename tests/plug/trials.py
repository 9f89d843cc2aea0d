"""The plug pulled after every event of a piece of work on the example host, and again while it recovers."""
import copy
import os
from random import Random

from plug.book import CASE, Book
from plug.programs import LISTS, counts, forget, plug, run
from plug.work import Work

PAGES, SLOTS = 72, 448
BLOCK = 4096
HOLE = bytes(BLOCK)
PIECES = 6  # for each place: two blocks of three pieces


class Register:
    """A register's file under trial, and the side files of trial.c."""

    def __init__(self, host, folder, pages=PAGES, slots=SLOTS):
        self.host = host
        self.pages, self.slots = pages, slots
        self.file = os.path.join(folder, 'register')
        self.side = os.path.join(folder, 'side')

    def forget(self):
        forget(self.file, self.side)

    def run(self, commands, settings=None):
        return run(self.host, (self.file, self.pages, self.slots), commands, self.side, settings)

    def listing(self, settings=None):
        """A run that lists the slides, from either end."""
        return self.run(LISTS, settings)

    def counts(self):
        """How many events, and calls of each kind, the last run to its end had."""
        return counts(self.side)

    def filled(self):
        """After how many events of a start its new file is filled: the place of the counts, the pages and the slots."""
        return PIECES * (1 + self.pages + self.slots)

    def image(self):
        """The file's runs of blocks that are not zeros, each with its place. The rest is a hole."""
        runs = []
        with open(self.file, 'rb') as file:
            for number, block in enumerate(iter(lambda: file.read(BLOCK), b'')):
                place = number * BLOCK
                if block != HOLE and runs and runs[-1][0] + len(runs[-1][1]) == place:
                    runs[-1][1].extend(block)
                elif block != HOLE:
                    runs.append((place, bytearray(block)))
        return runs

    def put(self, image):
        self.forget()
        with open(self.file, 'wb') as file:
            for place, blocks in image:
                file.seek(place)
                file.write(blocks)


def judged(book, run):
    """What is wrong after a start to its end and both lists, or None."""
    if run.error:
        return run.error
    if not (run.start() or '').startswith('0 '):
        return f'the start was refused: {run.start()}'
    if run.slides() is None:
        return f'the list was refused: {run.lines[-1]}'
    return book.settle(run.slides()) or run.disordered()


def recovered(register, book, random):
    """Up to two more deaths, while the register comes back; then it must be there. Returns what is wrong, or None."""
    for _ in range(random.randrange(3)):
        after = random.choice((random.randint(1, register.filled()), register.filled() + random.randint(1, 30)))
        run = register.listing(plug(after, random.choice(('kill', 'power')), random.randrange(1 << 30)))
        wrong = None if run.died else judged(book, run)
        if wrong:
            return wrong
    return judged(book, register.listing())


def noted(book, run, commands):
    """Takes what a run answered, and that it ended there."""
    answers = run.answers(commands)
    for command, answer in answers:
        book.take(command, answer)
    book.cut(commands[len(answers)] if len(answers) < len(commands) else None)


def pulled(register, book, commands, settings, random):
    """The plug is pulled during these commands. Returns whether it came to that, and what is wrong afterwards, or None."""
    book = copy.deepcopy(book)
    run = register.run(commands, settings)
    noted(book, run, commands)
    if not run.died:
        return False, run.error or None
    return True, recovered(register, book, random)


def worked(register, seed):
    """A register with a tree of several pages, its book, and further work."""
    book = Book()
    work = Work(Random(seed), keys=45, pages=PAGES, open_at_most=3, slides_at_most=3)
    commands = work.commands(90, removing=0.1)
    register.forget()
    for command, answer in register.run(commands).answers(commands):
        book.take(command, answer)
    book.cut(None)
    wrong = judged(book, register.listing())
    if wrong:
        raise ValueError(wrong)
    return book, register.image(), [*work.each_page(), *work.jammed(), *work.commands(20, removing=0.5)]


def each_event(register, book, image, commands, first=1, last=None, stride=1, seeds=1):
    """The plug pulled after one event of a run and then, from the same start, after another, up to the last or the run's end, by kill and
    by power failure. Gives for each what is wrong, or None. Without an image the register is made anew each time."""
    for how, seed in (('kill', 0), *(('power', seed) for seed in range(seeds))):
        after, died = first, True
        while died and (last is None or after <= last):
            random = Random(f'{how} {seed} {after}')
            register.put(image) if image else register.forget()
            died, wrong = pulled(register, book, commands, plug(after, how, random.randrange(1 << 30)), random)
            if died or wrong:
                yield f'{how} after event {after}', wrong
            after += stride


def from_the_start(register, book, image, commands, stride, seeds=1):
    """Here and there while the new file is filled, and after each event from then on."""
    yield from each_event(register, book, image, commands, last=register.filled() - 20, stride=stride)
    yield from each_event(register, book, image, commands, first=register.filled() - 10, seeds=seeds)


def working(host, folder):
    """During work: several cases open, commits, write-outs."""
    register = Register(host, folder)
    book, image, commands = worked(register, seed=1)
    yield from from_the_start(register, book, image, commands, stride=503)


def growing(host, folder):
    """While the areas grow by a few slots."""
    register = Register(host, folder)
    book, image, _ = worked(register, seed=2)
    register.slots += 4
    yield from from_the_start(register, book, image, ['list'], stride=331, seeds=3)


def making(host, folder):
    """While a new register is made and its first case filed."""
    register = Register(host, folder, pages=16, slots=128)
    yield from from_the_start(register, Book(), None, ['open 1', f'file 1 5 {CASE}', 'commit 1'], stride=37, seeds=2)


TRIALS = {'working': working, 'growing': growing, 'making': making}
