"""01's plain book over the example host's commands: the slides, and a sheet for each open case, tray by tray. It knows nothing of pages or
logs."""
from itertools import chain

CASE = 100  # a slide's value is its case's number times this, and a number within the case


class Book:
    def __init__(self):
        self.slides = {}
        self.sheets = {}
        self.doubt = []  # the sheet of a commit that was under way when the plug was pulled: it counts whole or not at all

    def take(self, command, answer):
        """A command that was answered."""
        name, *words = command.split()
        numbers = [int(word) for word in words]
        if not answer.startswith('0'):
            return
        if name == 'open':
            self.sheets[numbers[0]] = [[]]
        elif name == 'file':
            self.sheets[numbers[0]][-1].append((numbers[1], numbers[2]))
        elif name == 'remove':
            self.sheets[numbers[0]][-1].append((numbers[1], None))
        elif name == 'tray':
            self.sheets[numbers[0]].append([])
        elif name == 'take-back':
            self.sheets[numbers[0]][-1].clear()
        elif name == 'commit':
            self.slides = carried_out(self.slides, self.sheets.pop(numbers[0]))
        elif name == 'cancel':
            del self.sheets[numbers[0]]

    def cut(self, command):
        """The plug was pulled. This command, if any, was not answered."""
        if command and command.startswith('commit '):
            self.doubt = self.sheets.get(int(command.split()[1]), [])
        self.sheets = {}

    def settle(self, listed):
        """The slides that the register has after a restart. Returns what is wrong with them, or None."""
        for slides in (self.slides, carried_out(self.slides, self.doubt)):
            if listed == slides:
                self.slides, self.doubt = slides, []
                return None
        return difference(self.slides, listed)


def carried_out(slides, sheet):
    after = dict(slides)
    for key, value in chain.from_iterable(sheet):
        if value is None:
            after.pop(key, None)
        else:
            after[key] = value
    return after


def difference(slides, listed):
    """In words: what is missing, and what should not be there."""
    missing = sorted({value // CASE for key, value in slides.items() if listed.get(key) != value})
    foreign = sorted({value // CASE for key, value in listed.items() if slides.get(key) != value})
    says = []
    if missing:
        says.append('slides are missing of reported cases ' + ', '.join(map(str, missing)))
    if foreign:
        says.append('slides are there that no reported case left, of cases ' + ', '.join(map(str, foreign)))
    return '; '.join(says)
