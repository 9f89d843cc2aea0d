"""Edits: small wrong changes of one file, kept as text.

An edit has lines `NAME: TEXT`: `file: PATH` is the file; `old: TEXT` and `new: TEXT`, which may be repeated in pairs, are the change, where
the old text stands once in the file and `¶` is an end of line. Other names are for those who use the edit."""
import os


def read_edit(path):
    """The edit's lines by name, and under `pairs` the old and the new texts."""
    edit = {'pairs': []}
    old = None
    for line in open(path, encoding='utf-8'):
        name, _, text = line.rstrip('\n').partition(': ')
        if name == 'old':
            old = text.replace('¶', '\n')
        elif name == 'new' or line.rstrip('\n') == 'new:':
            edit['pairs'].append((old, text.replace('¶', '\n')))
        else:
            edit[name] = text
    return edit


def find_spots(edit, text):
    """Where the old texts stand in the file's text, as (start, end, new text), and what is wrong with the edit, if anything."""
    spots = []
    for old, new in edit['pairs']:
        if text.count(old) != 1:
            return [], f'the old text stands {text.count(old)} times in {edit["file"]}'
        start = text.index(old)
        spots.append((start, start + len(old), new))
    return spots, None if spots else 'the edit changes nothing'


def change_text(text, spots):
    """The text with all spots changed, each where it stood in the text as it was: one's new text may contain another's old one."""
    for start, end, new in sorted(spots, reverse=True):
        text = text[:start] + new + text[end:]
    return text


def apply_edit(edit, copy):
    """Changes the file in the copy, or says what is wrong with the edit."""
    path = os.path.join(copy, edit['file'])
    text = open(path, encoding='utf-8').read()
    spots, wrong = find_spots(edit, text)
    if not wrong:
        open(path, 'w', encoding='utf-8').write(change_text(text, spots))
    return wrong
