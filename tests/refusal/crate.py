"""A crate checked with edits, in a copy, over the proved crates that it uses."""
import os
import tempfile

import kit
from edits import change_text
from refusal import names
from refusal.source import functions
from refusal.verdict import Verdict


def text_with(crate, edits, file):
    """The file's text with the edits of it."""
    text = open(os.path.join(kit.crate(crate).folder, file), encoding='utf-8').read()
    return change_text(text, [spot for edit in edits if edit.file == file for spot in edit.spots])


def lines_of(file, text):
    """Each function of the file with its first and its last line."""
    return [(name, text.count('\n', 0, first) + 1, text.count('\n', 0, last) + 2) for name, first, last in functions(file, text)]


def verdict_in(room, crate, texts):
    status, says = kit.check(crate, room, {crate})
    return Verdict(status, says, {file: lines_of(file, text) for file, text in texts.items() if file.startswith('src/')})


def check(crate, edits):
    """The prover's verdict on the crate with these edits. What they do not touch is taken as it was proved.

    A proof cites the tests of the code by names that have their words. Where an edit only gives tests other names, the proof is turned to these and
    tried again, so that what is refused is what it says."""
    with tempfile.TemporaryDirectory() as room:
        kit.copy_crates([crate], room)
        texts = {file: text_with(crate, edits, file) for file in {edit.file for edit in edits}}
        for file, text in texts.items():
            open(os.path.join(room, 'crates', crate, file), 'w', encoding='utf-8').write(text)
        places, before = {place for edit in edits for place in edit.places}, kit.kept(crate)
        found = verdict_in(room, crate, texts)
        after = kit.modules(os.path.join(room, 'kept'))
        same = {place: names.needs(before, crate, place) == names.needs(after, crate, place) for place in places}
        weak = [place for place in sorted(places) if same[place] and found.errors_at(place, 'shape')]
        turned = {place: names.turned(names.tests(before, crate, place), names.tests(after, crate, place)) for place in weak}
        if any(turned.values()):
            for place, other in turned.items():
                names.turn(os.path.join(room, 'crates', crate), place, other)
            found = verdict_in(room, crate, texts)
        for place in places:
            found.settle(place, same[place])
        return found
