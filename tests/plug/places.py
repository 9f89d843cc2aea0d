"""The drive's own promises, tried without the register: a group of stores is there whole or not at all, with all those before it, and once
it was reported or seen it stays."""
import os
from itertools import product
from random import Random

from plug.programs import forget, plug, run

PLACES = 5
GROUPS = 4


class Places:
    """What each place must hold, and the group that was under way when the plug was pulled."""

    def __init__(self):
        self.holds = dict.fromkeys(map(str, range(PLACES)), '0')
        self.doubt = {}
        self.last = 0

    def take(self, lines):
        """The lines of a run: what the places hold, then what is stored. Returns what is wrong, or None."""
        shown = {}
        for what, place, number in map(str.split, lines):
            self.last = max(self.last, int(number))
            if what == 'torn':
                return f'place {place} holds parts of two stores'
            if what == 'holds':
                shown[place] = number
                if len(shown) == PLACES and not self.settles(shown):
                    return f'the places hold {shown}; {self.holds} was stored, and {self.doubt} was under way'
            if what == 'storing':
                self.doubt[place] = number
            if what == 'stored':
                self.holds[place] = self.doubt.pop(place)
        return None

    def settles(self, shown):
        """Whether this is what was stored, without the group under way or with all of it."""
        if shown not in (self.holds, {**self.holds, **self.doubt}):
            return False
        self.holds, self.doubt = shown, {}
        return True


def further(program, file, side, places, random, settings):
    """One more run. Returns whether it died, and what is wrong, or None."""
    done = run(program, (file, random.randrange(1 << 30), places.last + 1, GROUPS), [], side, settings)
    wrong = places.take(done.lines)
    return done.died, done.error or wrong


def placing(program, folder, seeds=2):
    """The plug pulled after each event, and then in up to four more runs at random events."""
    file, side = os.path.join(folder, 'drive'), os.path.join(folder, 'side')
    for how, seed in product(('kill', 'power'), range(seeds)):
        after, died = 1, True
        while died:
            forget(file, side)
            random, places = Random(f'{how} {seed} {after}'), Places()
            died, wrong = further(program, file, side, places, random, plug(after, how, random.randrange(1 << 30)))
            for _ in range(random.randrange(5)):
                again = plug(random.randint(1, 120), random.choice(('kill', 'power')), random.randrange(1 << 30))
                wrong = wrong or further(program, file, side, places, random, again)[1]
            wrong = wrong or further(program, file, side, places, random, None)[1]
            if died or wrong:
                yield f'{how} after event {after}', wrong
            after += 1
