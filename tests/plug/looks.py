"""What the host says of damaged copies, and that it changes nothing where it is to read only."""
import ctypes
import os
import subprocess
import zlib
from contextlib import contextmanager
from itertools import chain
from random import Random

from plug.book import CASE
from plug.programs import GAVE_UP, LISTS
from plug.trials import BLOCK, Register

PAGES, SLOTS = 16, 128
FIRST_SLOT = 897
PLACES = (*range(1 + PAGES), *range(FIRST_SLOT, FIRST_SLOT + SLOTS))
CONTENT, STRIPE = 144, 64
NEXT_SLOT, LATER = FIRST_SLOT + 5, 9  # the first slot that MADE leaves empty, and a group after all of its own
EDGES = (0, 1, PAGES, FIRST_SLOT, FIRST_SLOT + SLOTS - 1)
COPIES = ('first', 'second')
MADE = ['open 1', f'file 1 5 {CASE}', 'commit 1', 'open 2', f'file 2 6 {2 * CASE}', 'write-out 0']  # so a restart ends a batch, redoes, and stores
LISTED = [f'slide 5 {CASE}', 'list: 0']
LISTED_BACK = [f'slide 5 {CASE}', 'list-back: 0']
TOP = 2**32 - 1
CHECKED = ['restart: 0, done; open batches taken back: 1; page changes redone: 2', 'check: 0']
OTHERS = ('open 1', 'file 1 5 6', 'remove 1 5', 'find 1 5', 'next 1 5', 'previous 1 5', 'tray 1', 'take-back 1', 'commit 1', 'cancel 1', 'write-out 1')
REFUSED = '? read-only: list, list-back and check are the only commands'
LOST = 'drive: a place has no whole copy: docs/SERVICE.md says how to salvage the rest'
MAY_WRITE_ANYWHERE = 1  # CAP_DAC_OVERRIDE, which root has
PR_CAPBSET_DROP = 24


def name_of(place):
    what = 'the counts' if place == 0 else f'page {place - 1}' if place < FIRST_SLOT else f'slot {place - FIRST_SLOT + 1}'
    return f'drive: {what} (place {place}): '


def as_found(place, which, how='damaged'):
    return f'{name_of(place)}the {COPIES[which]} copy is {how}; the {COPIES[1 - which]} was taken'


def repaired(place, which, how='damaged'):
    return f'{name_of(place)}the {COPIES[which]} copy was {how} and is repaired from the {COPIES[1 - which]}'


def sealed(place, content, group=0, stores=0):
    """A block of a copy of this group, which has so many stores."""
    return summed(b'Dzk2' + place.to_bytes(4, 'big') + content + group.to_bytes(4, 'big') + stores.to_bytes(4, 'big'))


def summed(copy):
    return (copy + zlib.crc32(copy).to_bytes(4, 'big')).ljust(BLOCK, b'\0')


def at(place, which):
    return ((place // STRIPE * 2 + which) * STRIPE + place % STRIPE) * BLOCK


class Scene(Register):
    """A register's file, copies of which are damaged."""

    def __init__(self, host, folder):
        super().__init__(host, os.path.join(folder, 'drive'), PAGES, SLOTS)
        os.mkdir(os.path.dirname(self.file))
        self.run(MADE)
        self.made = self.image()
        self.run(['list'])
        self.restarted = self.image()
        self.put(self.made)

    def block(self, place, which):
        with open(self.file, 'rb') as file:
            file.seek(at(place, which))
            return file.read(BLOCK)

    def set_block(self, place, which, block):
        with open(self.file, 'r+b') as file:
            file.seek(at(place, which))
            file.write(block)

    def damage(self, place, which):
        """Turns a bit, or turns it back."""
        block = self.block(place, which)
        self.set_block(place, which, block[:30] + bytes([block[30] ^ 1]) + block[31:])

    def change_page(self, page, byte, bits):
        """Changes a byte of both copies of a page, which stay whole."""
        for which in (0, 1):
            content = bytearray(self.block(1 + page, which)[8 : 8 + CONTENT])
            content[byte] ^= bits
            self.set_block(1 + page, which, sealed(1 + page, content))

    def host_on(self, words, commands, **how):
        text = ''.join(command + '\n' for command in commands)
        done = subprocess.run([self.host, *words], input=text, capture_output=True, text=True, timeout=60, **how)
        return done.returncode, done.stdout.splitlines(), done.stderr.splitlines()

    def look(self, commands, **how):
        """A run that only reads: its status, its lines and those on standard error; and whether it left all as it was."""
        before = self.state()
        result = self.host_on(['--read-only', self.file], commands, **how)
        return result if self.state() == before else 'the drive was changed'

    def start(self, commands, **how):
        return self.host_on([self.file, str(self.pages), str(self.slots)], commands, **how)

    def unless_it_holds(self, image):
        return None if self.image() == image else 'the file holds other bytes than it should'

    def state(self):
        """The names beside the file, and for each what any change of it would change."""
        entries = os.scandir(os.path.dirname(self.file))
        return sorted((entry.name, entry.inode(), entry.stat().st_size, entry.stat().st_mtime_ns, entry.stat().st_mode) for entry in entries)


def unless(got, wanted):
    return None if got == wanted else f'{got} in place of {wanted}'


def each_copy(scene):
    """Each copy by itself, looked at."""
    scene.put(scene.made)
    for place in PLACES:
        for which in (0, 1):
            scene.damage(place, which)
            wanted = (0, ['start: 0 1 2', as_found(place, which), *CHECKED], [])
            yield f'copy {which} of place {place}', unless(scene.look(['check']), wanted)
            scene.damage(place, which)
    yield 'after all of these', scene.unless_it_holds(scene.made)


def many_copies(scene):
    """One copy of each place, or of some, repaired by a start."""
    random = Random(1)
    choices = [[0] * len(PLACES), [1] * len(PLACES), *([random.randrange(3) for _ in PLACES] for _ in range(3))]
    for number, choice in enumerate(choices):
        scene.put(scene.made)
        damaged = [(place, which) for place, which in zip(PLACES, choice) if which < 2]
        for copy in damaged:
            scene.damage(*copy)
        lines = [repaired(*copy) for copy in damaged]
        wanted = (0, ['start: 0 1 2', *LISTED, *lines, *CHECKED], lines)
        wrong = unless(scene.start(['list', 'check']), wanted) or scene.unless_it_holds(scene.restarted)
        yield f'{len(damaged)} copies at once, {number}', wrong


def pairs(scene):
    """Both copies of a place, and one of another."""
    for place in EDGES:
        scene.put(scene.made)
        for copy in ((place, 0), (place, 1), (PAGES - 1, 1)):
            scene.damage(*copy)
        lines = {place: f'{name_of(place)}the first copy is damaged, and so is the second'}
        if place != 0:  # without the counts no other place is looked at
            lines[PAGES - 1] = as_found(PAGES - 1, 1)
        image, wanted = scene.image(), (GAVE_UP, [], [*(lines[number] for number in sorted(lines)), LOST])
        yield f'both copies of place {place}, looked at', unless(scene.look(['check']), wanted)
        yield f'both copies of place {place}', unless(scene.start(['check']), wanted) or scene.unless_it_holds(image)


def behind(scene):
    """A second copy from before the last store."""
    scene.put(scene.made)
    place = FIRST_SLOT + 1
    older = scene.block(place, 1)
    scene.set_block(place, 1, sealed(place, bytes(CONTENT)))
    wanted = (0, ['start: 0 1 2', as_found(place, 1, 'behind'), *CHECKED], [])
    yield 'a second copy is behind', unless(scene.look(['check']), wanted) or unless(scene.block(place, 0), older)


def cut(scene):
    """A group of two stores of which one is there, in the first copy or in both."""
    scene.put(scene.made)
    scene.set_block(NEXT_SLOT, 0, sealed(NEXT_SLOT, b'x' * CONTENT, LATER, 2))
    wanted = (0, ['start: 0 1 2', as_found(NEXT_SLOT, 0, 'ahead'), *CHECKED], [])
    yield 'half of a group, looked at', unless(scene.look(['check']), wanted)
    line = repaired(NEXT_SLOT, 0, 'ahead')
    yield 'half of a group', unless(scene.start(['check']), (0, ['start: 0 1 2', line, *CHECKED], [line])) or scene.unless_it_holds(scene.restarted)
    scene.put(scene.made)
    scene.set_block(NEXT_SLOT, 0, sealed(NEXT_SLOT, b'x' * CONTENT, LATER, 2))
    scene.damage(NEXT_SLOT, 1)
    wanted = (GAVE_UP, [], [f'{name_of(NEXT_SLOT)}the first copy is ahead, and the second is damaged', LOST])
    yield 'half of a group, without the copy from before', unless(scene.look(['check']), wanted)
    for which in (0, 1):
        scene.set_block(NEXT_SLOT, which, sealed(NEXT_SLOT, b'x' * CONTENT, LATER, 2))
    wanted = (GAVE_UP, [], ["drive: of the last call's stores some are not there: Input/output error"])
    yield 'a group that lost a store', unless(scene.look(['check']), wanted)


def ungrouped(scene):
    """A file from before there were groups, where the two copies of a place stand together."""
    scene.put(scene.made)
    blocks = {place: summed(b'Dzk1' + scene.block(place, 0)[4 : 8 + CONTENT]) for place in PLACES}
    scene.put([(2 * place * BLOCK, 2 * block) for place, block in blocks.items()])
    yield 'an older file, looked at', unless(scene.look(['check']), (0, ['start: 0 1 2', *CHECKED], []))
    wrong = unless(scene.start(['check']), (0, ['start: 0 1 2', *CHECKED], [])) or scene.unless_it_holds(scene.restarted)
    yield 'an older file', wrong


def refused(scene):
    """A page whose copies are whole and whose own number is not its own: restart's 3."""
    scene.put(scene.made)
    scene.change_page(1, 15, 1)
    wanted = (1, ['start: 3', 'restart: 3, a stored page is damaged', 'check: 3', 'list: 3', 'list-back: 3'], [])
    yield 'a restart that is refused', unless(scene.look(['check', *LISTS]), wanted)


def from_either_end(scene):
    """No slide; and slides at both ends of the keys, of which the one under 0 is an older version's: no host files it."""
    scene.forget()
    yield 'no slide from either end', unless(scene.start(LISTS), (0, ['start: 0 0 0', 'list: 0', 'list-back: 0'], []))
    scene.forget()
    cases = ((f'open {case}', f'file {case} {key} {case * CASE}', f'commit {case}') for case, key in enumerate((5, 9, TOP), 1))
    scene.start([*chain.from_iterable(cases), 'write-out 1'])
    scene.change_page(1, 19, 5)
    slides = [f'slide 0 {CASE}', f'slide 9 {2 * CASE}', f'slide {TOP} {3 * CASE}']
    wanted = (0, ['start: 0 0 0', *slides, 'list: 0', *slides[::-1], 'list-back: 0'], [])
    yield 'slides from either end, looked at', unless(scene.look(LISTS), wanted)
    yield 'slides from either end', unless(scene.start(LISTS), wanted)


def commands(scene):
    scene.put(scene.made)
    for command in OTHERS:
        wanted = (0, ['start: 0 1 2', REFUSED, *LISTED, *LISTED_BACK], [])
        yield f'{command}, read-only', unless(scene.look([command, *LISTS]), wanted)


def may_not_write():
    """For root: what is not writable shall not be written."""
    ctypes.CDLL(None).prctl(PR_CAPBSET_DROP, MAY_WRITE_ANYWHERE, 0, 0, 0)


def unwritable(scene):
    """A file and a folder that nobody may write."""
    folder = os.path.dirname(scene.file)
    scene.put(scene.made)
    os.chmod(scene.file, 0o444)
    os.chmod(folder, 0o555)
    looked = scene.look(['list', 'check'], preexec_fn=may_not_write)
    started = scene.start(['list'], preexec_fn=may_not_write)
    os.chmod(folder, 0o755)
    yield 'a folder that may not be written', unless(looked, (0, ['start: 0 1 2', *LISTED, *CHECKED], []))
    yield 'a start in such a folder', unless(started[0], GAVE_UP)


@contextmanager
def running(*words):
    """A host that has started and waits."""
    with subprocess.Popen(words, stdin=subprocess.PIPE, stdout=subprocess.PIPE, text=True) as process:
        process.stdout.readline()
        yield
        process.stdin.close()
        process.stdout.read()


def others(scene):
    """Readers beside a host that writes, and beside each other."""
    scene.put(scene.made)
    says = (GAVE_UP, [], ['drive: another program has it: Resource temporarily unavailable'])
    with running(scene.host, '--read-only', scene.file):
        yield 'two readers', unless(scene.look(['list']), (0, ['start: 0 1 2', *LISTED], []))
        yield 'a host beside a reader', unless(scene.start(['list']), says)
    with running(scene.host, scene.file, str(PAGES), str(SLOTS)):
        yield 'a reader beside a host', unless(scene.look(['list']), says)


def looking(host, folder):
    """Gives for each try what is wrong, or None."""
    scene = Scene(host, folder)
    for tries in (commands, from_either_end, unwritable, others, refused, behind, cut, ungrouped, pairs, many_copies, each_copy):
        yield from tries(scene)
