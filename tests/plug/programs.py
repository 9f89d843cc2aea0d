"""The programs under trial: compiled, run on a register's file, and their answers read."""
import os
import re
import subprocess

ROOT = os.path.dirname(os.path.dirname(os.path.dirname(os.path.abspath(__file__))))
WRAPPED = ('open', 'close', 'fcntl', 'fstat', 'lstat', 'pread', 'pwrite', 'fdatasync', 'fsync', 'renameat2', 'unlink')
SIDES = ('pieces', 'was', 'was.new', 'names', 'counts', 'steps')
KINDS = ('flush', 'write', 'read', 'name', 'open')
REPAIRED = re.compile(r'drive: .+ \(place \d+\): the (first|second) copy was (damaged|behind|ahead) and is repaired from the (first|second)')
GAVE_UP = 2  # the host's status where its drive failed, or is another's
LISTS = ['list', 'list-back']  # the slides, from either end


def library():
    """Makes the register's library for C, where none is named, and says what to link with."""
    script = '. tests/c/library.sh && mkdir -p target/c && library_made target/c/build.txt && linked'
    return subprocess.run(['bash', '-c', script], cwd=ROOT, stdout=subprocess.PIPE, text=True, check=True).stdout.split()


def compiled(to, sources, link, plug):
    """Compiles the sources. With `plug`, the plug can be pulled after each event (trial.c)."""
    words = ['cc', '-std=c11', '-O2', '-U_FORTIFY_SOURCE', '-Wall', '-Wextra', '-Werror', '-Iinclude', '-Iexamples/host', *sources]
    if plug:
        words += ['tests/plug/trial.c', *(f'-Wl,--wrap={name}' for name in WRAPPED)]
    subprocess.run([*words, *link, '-o', to], cwd=ROOT, check=True)
    return to


def plug(after, how, seed):
    """After which event the plug is pulled, how (`kill` or `power`), and the seed for what a power failure loses."""
    return {'PLUG_AFTER': str(after), 'PLUG_HOW': how, 'PLUG_SEED': str(seed)}


def fault(kind, number, cache, seed):
    """Which call fails, by its kind and number, and whether the system then keeps or drops what was to be flushed."""
    return {'PLUG_FAULT': kind, 'PLUG_NUMBER': str(number), 'PLUG_CACHE': cache, 'PLUG_SEED': str(seed)}


class Run:
    """What a program printed, line by line, and how it ended."""

    def __init__(self, output, error, status):
        self.lines = output.split('\n')[:-1]  # a line without its end was not printed whole
        self.died = status == -9
        self.gave_up = status == GAVE_UP
        said = error.split('\n')[:-1] if self.died else error.splitlines()
        self.repairs = [line for line in said if REPAIRED.fullmatch(line)]  # no fault of the host's
        says = '\n'.join(line for line in said if line not in self.repairs)
        self.error = says.strip() or (f'the program ended with status {status}' if status not in (0, 1, -9) else '')

    def answers(self, commands):
        """The commands that were answered, each with its answer."""
        lines = [line for line in self.lines[1:] if not line.startswith('slide ')]
        pairs = list(zip(commands, lines))
        for command, line in pairs:
            if not line.startswith(command + ': '):
                raise ValueError(f'{command!r} was answered by {line!r}')
        return [(command, line[len(command) + 2:]) for command, line in pairs]

    def start(self):
        """The answer to the start, or None where it was not reached."""
        return self.lines[0].removeprefix('start: ') if self.lines else None

    def listed(self, command):
        """The slides that a command printed to its end, in its order, or None."""
        slides = []
        for line in self.lines:
            if line == command + ': 0':
                return slides
            slides = [*slides, tuple(map(int, line.split()[1:]))] if line.startswith('slide ') else []
        return None

    def slides(self):
        """The slides of a list that was printed to its end, or None."""
        listed = self.listed('list')
        return None if listed is None else dict(listed)

    def disordered(self):
        """What is wrong with the order of both lists, or None."""
        rising, falling = map(self.listed, LISTS)
        if rising != sorted(rising):
            return 'the list does not rise'
        return None if falling == rising[::-1] else f'the list from the last slide on is {falling}, and from the first on {rising}'


def run(program, words, commands, side, settings=None):
    """Runs a program over the simulated drive, to its end or to its death."""
    settings = {'PLUG_FILE': words[0], 'PLUG_SIDE': side, **(settings or {})}
    text = ''.join(command + '\n' for command in commands)
    done = subprocess.run([program, *map(str, words)], input=text, capture_output=True, text=True, env=settings, timeout=60)
    return Run(done.stdout, done.stderr, done.returncode)


def counts(side):
    """How many events, and how many calls of each kind, the last run to its end had."""
    return dict(zip(('event', *KINDS), map(int, open(side + '.counts').read().split())))


def forget(file, side):
    """Removes a register's file, and the side files of trial.c."""
    for name in (file, file + '.new', *(f'{side}.{which}' for which in SIDES)):
        if os.path.exists(name):
            os.remove(name)
