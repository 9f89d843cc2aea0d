#!/usr/bin/env python3
"""The toolchain's checker, for suites that try many wrong texts: what a text does not touch is taken as it was proved, so that an edit costs seconds.

`rt` checks a crate where it stands, and first all below it. Here copies of some crates are checked instead, over what `rt check` kept of them and built
of the others (crates/*/out). What the checker is to be told of a crate is taken from `rt` itself (rtlib).

`tests/kit.py jobs` prints how many checks to run side by side."""
import functools
import importlib.util
import os
import shutil
import subprocess
import sys

ROOT = os.path.dirname(os.path.dirname(os.path.abspath(__file__)))
PARTS = 'src', 'specs', 'proofs'
MOST_MEMORY = 4_000_000  # that a check may take, in KiB


def load_rtlib():
    folder = os.path.dirname(os.path.realpath(shutil.which('rt')))
    spec = importlib.util.spec_from_file_location('rtlib', os.path.join(folder, 'rtlib.py'))
    sys.modules['rtlib'] = importlib.util.module_from_spec(spec)
    spec.loader.exec_module(sys.modules['rtlib'])
    return sys.modules['rtlib']


rtlib = load_rtlib()


@functools.lru_cache(maxsize=None)
def crate(name):
    return rtlib.Crate(os.path.join(ROOT, 'crates', name), ROOT, {})


def below(name):
    """The names of the crates of the repository that a crate leans on, the lower ones first."""
    return [one.name for one in crate(name).below()]


def jobs():
    """How many checks to run side by side: RT_JOBS, or as many as there are processors and memory for."""
    if os.environ.get('RT_JOBS', '').isdigit():
        return int(os.environ['RT_JOBS'])
    free = next(int(line.split()[1]) for line in open('/proc/meminfo', encoding='ascii') if line.startswith('MemAvailable:'))
    return max(1, min(len(os.sched_getaffinity(0)), free // MOST_MEMORY))


def unproved(names):
    """The crates of these that `rt check` does not prove. With DONZHIKAR_CHECKED it has just proved them all."""
    if os.environ.get('DONZHIKAR_CHECKED'):
        return []
    return [name for name in names if subprocess.run(['rt', 'check'], cwd=crate(name).folder, stdin=subprocess.DEVNULL, stdout=subprocess.DEVNULL).returncode]


def modules(folder):
    """The folder in which a check keeps what it checked, below the one that it was given, or None. (Beside it stands what it offered to write.)"""
    found = [name for name in os.listdir(folder) if not name.endswith('-offers')] if os.path.isdir(folder) else []
    return os.path.join(folder, found[0]) if len(found) == 1 else None


def kept(name):
    """The checked modules of a crate as it stands."""
    return modules(os.path.join(crate(name).folder, 'out', 'incremental'))


def link(source, target):
    """Brings a checked module, which no check writes into: it replaces it."""
    try:
        os.link(source, target)
    except OSError:
        shutil.copyfile(source, target)


def copy_crates(names, room):
    """Copies crates to a room, with their checked modules."""
    for name in names:
        for part in PARTS:
            source = os.path.join(crate(name).folder, part)
            if os.path.isdir(source):
                shutil.copytree(source, os.path.join(room, 'crates', name, part))
        source = kept(name)
        for folder, _, files in os.walk(source) if source else ():
            target = os.path.join(room, 'kept', os.path.basename(source), os.path.relpath(folder, source))
            os.makedirs(target, exist_ok=True)
            for file in files:
                if file.endswith('.oantt') and not os.path.exists(os.path.join(target, file)):
                    link(os.path.join(folder, file), os.path.join(target, file))


def words(name, room, copied):
    """What the checker is told of a crate of the room: where its libraries are. Those that were copied are read as texts, the others as they were proved."""
    told = crate(name)
    if copied == {name}:
        return told.words(['--jobs', '1'], keeps=False)
    sources = [one for one in told.below() if one.name in copied]
    named = {one.name for user in (told, *sources) for one in user.deps} - copied
    of_kit = {library for one in (told, *told.below()) for library in one.of_kit} | {'core'}
    found = ['--crate-name', name, 'src/lib.rt', '-L', f'dependency={rtlib.KIT}/rlibs']
    for library in sorted(of_kit):
        found += ['--extern', f'{library}={rtlib.KIT}/rlibs/{library}.rlib']
    for one in sources:
        uses = dict.fromkeys(['core', *one.of_kit, *(used.name for used in one.deps)])
        found += ['--lib', f'{one.name}:{",".join(uses)}={room}/crates/{one.name}/src/lib.rt']
    for one in told.below():
        if one.name not in copied:
            found += ['--extern', f'{one.name}={one.rlib}'] if one.name in named else []
            found += ['-L', f'dependency={os.path.dirname(one.rlib)}']
    found += ['--antt-project', f'{rtlib.KIT}/rattle/logic/antt-project.json', '--logic-built', f'{rtlib.KIT}/logic_built']
    return [*found, '--jobs', '1', '--links', f'{name}=']


def check(name, room, copied):
    """What the checker says of a crate of the room, as its status and a text. With it the room has the crates in `copied`."""
    command = [rtlib.RATTLE, 'check', *words(name, room, set(copied)), '--incremental', os.path.join(room, 'kept')]
    how = {'stdin': subprocess.DEVNULL, 'stdout': subprocess.PIPE, 'stderr': subprocess.STDOUT, 'text': True, 'errors': 'replace'}
    run = subprocess.run(command, cwd=os.path.join(room, 'crates', name), **how)
    return run.returncode, run.stdout


if __name__ == '__main__' and sys.argv[1:] == ['jobs']:
    print(jobs())
