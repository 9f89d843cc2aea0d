"""The example host as it is, really flushing, killed by `kill -9` from outside at any moment of its work."""
import os
import signal
import subprocess
import time
from contextlib import suppress
from random import Random

from plug.book import Book
from plug.programs import LISTS, Run
from plug.work import Work

PAGES, SLOTS, MORE = 128, 512, 128
SHORT = ('17', '18')
REFUSED = 2  # the host's status where it cannot have its drive


def killed(host, words, commands, answered, delay):
    """Starts the host, and kills it so long after so many lines were printed."""
    with subprocess.Popen([host, *map(str, words)], stdin=subprocess.PIPE, stdout=subprocess.PIPE, stderr=subprocess.PIPE) as process:
        with suppress(BrokenPipeError):  # a host whose start is refused reads nothing
            process.stdin.write(''.join(command + '\n' for command in commands).encode())
            process.stdin.close()
        lines = [process.stdout.readline() for _ in range(answered)]
        time.sleep(delay)
        process.send_signal(signal.SIGKILL)
        output = b''.join(lines) + process.stdout.read()
        error = process.stderr.read().decode()
        return Run(output.decode(), error, process.wait())


class Life:
    """One register, which loses its host again and again."""

    def __init__(self, host, file, seed):
        self.host, self.file = host, file
        self.random, self.book = Random(seed), Book()
        self.work = Work(self.random, keys=150, pages=PAGES, open_at_most=4, slides_at_most=4)
        self.pages, self.slots = PAGES, SLOTS

    def kill(self):
        """One more time: a quarter of them while the host starts, the others after it printed some lines. Returns what is wrong, or None."""
        commands = ['list', *self.work.commands(60, removing=0.3)]
        at_start = self.random.random() < 0.25
        lines = 0 if at_start else self.random.randint(1, len(self.book.slides) + 30)
        run = killed(self.host, (self.file, self.pages, self.slots), commands, lines, self.random.uniform(0, 0.02 if at_start else 0.004))
        return self.judged(run, commands)

    def end(self):
        """A start that nobody disturbs. A second host on the same file must not come in."""
        words, commands = [self.host, self.file, str(self.pages), str(self.slots + MORE)], LISTS
        with subprocess.Popen(words, stdin=subprocess.PIPE, stdout=subprocess.PIPE, stderr=subprocess.PIPE, text=True) as first:
            start = first.stdout.readline()
            second = subprocess.run(words, input='', capture_output=True, text=True)
            output, error = first.communicate(''.join(command + '\n' for command in commands))
        run = Run(start + output, error, first.returncode)
        wrong = self.judged(run, commands) or (f'the list was refused: {run.lines[-1]}' if run.slides() is None else None)
        return wrong or run.disordered() or ('a second host came in' if second.returncode != REFUSED else None)

    def judged(self, run, commands):
        answers = run.answers(commands)
        wrong = run.error or (self.book.settle(run.slides()) if run.slides() is not None else None)
        for command, answer in answers:
            self.book.take(command, answer)
        self.book.cut(commands[len(answers)] if len(answers) < len(commands) else None)
        start = run.start()
        if start in SHORT or any(answer in SHORT for _, answer in answers):
            self.pages, self.slots = self.pages + MORE, self.slots + MORE
        elif start is not None and not start.startswith('0 '):
            wrong = wrong or f'the start was refused: {start}'
        return wrong


def killing(host, folder, lives, kills=20):
    """Gives for each kill what is wrong, or None."""
    for seed in range(1, lives + 1):
        life = Life(host, os.path.join(folder, f'life-{seed}'), seed)
        for number in range(1, kills + 1):
            wrong = life.kill() or (life.end() if number == kills else None)
            yield f'life {seed}, kill {number}', wrong
            if wrong:
                break
