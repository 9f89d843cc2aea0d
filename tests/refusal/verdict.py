"""What the prover says of a crate: a line for each function, and the errors at each place.

A place is a function, for an error in its proof, or a law, for one in specs/. An error is of one of these kinds:
- shape: a name that the prover makes of the code's shape (its calls, tests and goals) is gone, so the proof does not fit the code any more.
  That says nothing of what the code does;
- fact: any other. Something that is to be proved does not follow.
A goal that stays open, and that the function's files do not answer, is of fact where the prover shows it to be false, where the code has the same to show
as before, in the same order, or where the function has no such file; else it is of shape. What rests on something that was itself refused has no error of
its own."""
import re

FUNCTION = re.compile(r'^(?:fn|struct|enum) \w+?::(\S+): (.*)$', re.M)
ERROR = re.compile(r'^(?:\S*/)?(proofs|specs|src)/(\S+?):\d+:\d+: error: `([^`]*)`: (.*(?:\n  .*)*)', re.M)
OPEN = re.compile(r'^note: (?:\S*/)?(src/\S+?):(\d+):\d+: (it is not proved that .*)\(`([^`]*)`\)(.*)$', re.M)
FALLEN = re.compile(r'error: \d+ declarations? that depends? on `([^`]*)`, which was (?:rejected|not admitted), (?:was|were) not checked: (.*)$', re.M)
MODULES = re.compile(r'^crate \w+: modules loaded=(\d+) checked=(\d+)$', re.M)
SHAPE = re.compile(r'that can be named from here|has no field|is not in scope|is no name')
FALSE = 'allow values at which this goal is false'
RESTS = 'it calls `'


class Verdict:
    def __init__(self, status, text, sources):
        """`sources` has for each edited file its functions, as source.functions gives them."""
        self.status, self.text = status, text
        self.functions = dict(FUNCTION.findall(text))
        modules = MODULES.search(text)
        self.loaded = int(modules[1]) if modules else 0
        self.errors = {}
        for folder, path, name, says in ERROR.findall(text):
            self.note(self.place_of(folder, path, name), 'shape' if SHAPE.search(says) else 'fact', name, says)
        self.fallen = {name.split(' ')[0]: under for under, names in FALLEN.findall(text) for name in names.split(', ')}
        for file, line, says, name, more in OPEN.findall(text):
            for function, first, last in sources.get(file, []):
                if first <= int(line) <= last:
                    self.note(function, 'fact' if FALSE in more else 'open', name, says + more)

    def note(self, place, kind, name, says):
        self.errors.setdefault(place, []).append((kind, name, says))

    def settle(self, place, same_needs):
        """What stays open at the place is a fact where the code has the same to show as before, or where no file says how it is shown."""
        kind = 'fact' if same_needs or self.made(place) else 'shape'
        self.errors[place] = [(kind if k == 'open' else k, name, says) for k, name, says in self.errors.get(place, [])]

    def place_of(self, folder, path, name):
        """The function in whose folder of proofs/ the error is, or else the declaration."""
        parts = path.split('/')[:-1]
        owners = ['::'.join(parts[:n]) for n in range(len(parts), 0, -1)] if folder == 'proofs' else []
        return next((owner for owner in owners if owner in self.functions), name)

    def is_refusal(self):
        return self.status == 1 and re.search(r'^logic=not-proved', self.text, re.M) is not None

    def is_proved(self, function):
        return self.functions.get(function, '').startswith('proved')

    def rests_on_refused(self, places):
        return any(RESTS in self.functions.get(place, '') for place in places)

    def refused_under(self, place):
        """The place with errors of its own that it rests on, or itself."""
        seen = set()
        while place in self.fallen and place not in self.errors and place not in seen:
            seen.add(place)
            place = self.fallen[place]
        return place

    def errors_at(self, place, kind):
        return [(name, says) for k, name, says in self.errors.get(place, []) if k == kind]

    def made(self, place):
        """What stays open of a proof that the prover made itself, and that has no file."""
        return re.match(r'no proof: .*`search` did not prove `([^`]*)`', self.functions.get(place, ''))

    def fact_lost(self, place):
        """The first part of the proof there that a lost fact refuses, if any."""
        made = self.made(place)
        return made[1] if made else next((name for name, _ in self.errors_at(place, 'fact')), None)

    def strays(self, places, falling):
        """The functions and laws that no edit explains: with an error of their own, or not proved though they call nothing that is not proved."""
        own = [place for place in {*self.functions, *self.errors} if self.fact_lost(place) or self.errors_at(place, 'shape') or self.errors_at(place, 'open')]
        down = [name for name, says in self.functions.items() if not says.startswith('proved') and RESTS not in says]
        return sorted(set(own) - places | set(down) - places - falling)
