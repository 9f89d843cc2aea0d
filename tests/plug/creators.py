"""Two hosts start at once where there is no register, or one that was left, each held up at each of its steps; and a register is put there by
others while a host makes one. Whatever was reported, by either, must be there, and what was put there too."""
import os
import shutil
import signal
import subprocess
from itertools import product

from plug.book import CASE, Book
from plug.programs import Run
from plug.trials import Register, judged, noted

PAGES, SLOTS = 16, 128
FOREIGN = 'another program has it'


def commands_of(case):
    return ['list', f'open {case}', f'file {case} {case} {case * CASE}', f'commit {case}']


class Held:
    """A host that stops before one of its steps, and goes on when it is told."""

    def __init__(self, register, words, commands, side, stop):
        self.commands, self.side = commands, side
        settings = {'PLUG_FILE': register.file, 'PLUG_SIDE': side, 'PLUG_STOP': str(stop)}
        words = [register.host, *map(str, words)]
        self.process = subprocess.Popen(words, stdin=subprocess.PIPE, stdout=subprocess.PIPE, stderr=subprocess.PIPE, env=settings)
        try:
            self.process.stdin.write(''.join(command + '\n' for command in self.commands).encode())
            self.process.stdin.close()
        except BrokenPipeError:  # a host that gives up reads nothing
            pass
        self.run = None
        self.wait()

    def wait(self):
        """Until it stops or ends."""
        _, status = os.waitpid(self.process.pid, os.WUNTRACED)
        if os.WIFSTOPPED(status):
            return
        self.process.returncode = os.waitstatus_to_exitcode(status)
        output, error = self.process.stdout.read().decode(), self.process.stderr.read().decode()
        self.process.stdout.close()
        self.process.stderr.close()
        self.run = Run(output, error, self.process.returncode)

    def finish(self):
        if self.run is None:
            self.process.send_signal(signal.SIGCONT)
            self.wait()

    def judged(self, book):
        """Takes what it reported. Returns what is wrong with its end, or None: it may find that another has the drive."""
        noted(book, self.run, self.commands)
        return None if FOREIGN in self.run.error else self.run.error or None


class Creator(Held):
    """A host that files a case of its own."""

    def __init__(self, register, case, stop=0):
        super().__init__(register, (register.file, PAGES, SLOTS), commands_of(case), f'{register.side}-{case}', stop)


def apart(names):
    """The numbers of these steps, but for those in the midst of reading and filling."""
    return [n for n, name in enumerate(names, 1) if name not in ('read', 'write') or names[n - 2] != name]


class Scene:
    """What the hosts find: nothing, or a register with a case."""

    def __init__(self, register, image, slides):
        self.register, self.image, self.slides = register, image, slides

    def set(self):
        """Sets the scene, and opens its book."""
        self.register.put(self.image) if self.image else self.register.forget()
        book = Book()
        book.slides = dict(self.slides)
        return book

    def steps(self):
        """The steps of a host that is alone, up to its first stores."""
        self.set()
        names = open(Creator(self.register, 1).side + '.steps').read().split()
        return apart(names[:names.index('flush-name') + 4])

    def left(self, book, wrong):
        return wrong or judged(book, self.register.listing())


def one_after_another(scene, stop):
    """The first is held up while the second does all of its work. It may not give up: nobody is there when it goes on."""
    book, first = scene.set(), Creator(scene.register, 1, stop)
    second = Creator(scene.register, 2)
    first.finish()
    wrong = second.judged(book) or first.judged(book)
    return scene.left(book, wrong or first.run.error or None)


def at_once(scene, stop, second_stop):
    """Each is held up, and goes on where the other has come to its end or its stop."""
    book, first = scene.set(), Creator(scene.register, 1, stop)
    second = Creator(scene.register, 2, second_stop)
    first.finish()
    second.finish()
    return scene.left(book, first.judged(book) or second.judged(book))


def put_there(scene, stop, other, slides):
    """A register of others is copied to the name while a host makes one, unless the host has come before."""
    book, first = scene.set(), Creator(scene.register, 1, stop)
    if not os.path.exists(scene.register.file):
        shutil.copyfile(other, scene.register.file)
        book.slides = dict(slides)
    first.finish()
    noted(book, first.run, first.commands)
    return scene.left(book, None)


def creating(host, folder):
    """Gives for each pair of delays what is wrong, or None."""
    register = Register(host, folder, PAGES, SLOTS)
    os.mkdir(os.path.join(folder, 'other'))
    other = Register(host, os.path.join(folder, 'other'), PAGES, SLOTS)
    other.run(commands_of(7))
    slides = {7: 7 * CASE}
    nothing = Scene(register, None, {})
    for stop in nothing.steps():
        yield f'another register put there at step {stop}', put_there(nothing, stop, other.file, slides)
    for name, scene in (('no register', nothing), ('a register', Scene(register, other.image(), slides))):
        stops = scene.steps()
        for stop in stops:
            yield f'{name}, the second while the first is at step {stop}', one_after_another(scene, stop)
        for stop, second_stop in product(stops, stops):
            yield f'{name}, steps {stop} and {second_stop}', at_once(scene, stop, second_stop)
