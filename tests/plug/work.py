"""A technician's work, drawn from a seed: several open cases, slides filed and removed, trays begun and taken back, cases committed and
cancelled, pages written out."""

from plug.book import CASE


class Work:
    def __init__(self, random, keys, pages, open_at_most, slides_at_most):
        self.random = random
        self.keys = range(keys)
        self.likely = set()  # keys that the register probably has: most commands are meant to pass, and some are not
        self.in_use = (0, 1, *range(pages - 4, pages))  # the map, the root, and the pages that are taken first
        self.open_at_most = open_at_most
        self.slides_at_most = slides_at_most
        self.last_case = 0

    def commands(self, count, removing):
        """So many commands or a few more, from a register without open cases. Some cases are open at the end. `removing` is the part of the
        slides that are removed, not filed."""
        left = {}  # the open cases, and how many slides each still gets
        lines = []
        while len(lines) < count:
            if not left or len(left) < self.open_at_most and self.random.random() < 0.3:
                self.last_case += 1
                left[self.last_case] = self.random.randint(1, self.slides_at_most)
                lines.append(f'open {self.last_case}')
            lines.append(self.step(self.random.choice(sorted(left)), left, removing))
            if self.random.random() < 0.15:
                lines.append(f'write-out {self.random.choice(self.in_use)}')
        return lines

    def step(self, case, left, removing):
        if self.random.random() < 0.2:
            return f'{self.random.choice(("tray", "take-back"))} {case}'
        if left[case] == 0:
            del left[case]
            return f'commit {case}' if self.random.random() < 0.75 else f'cancel {case}'
        left[case] -= 1
        if self.random.random() < removing:
            key = self.key(self.likely)
            self.likely.discard(key)
            return f'remove {case} {key}'
        key = self.key(set(self.keys) - self.likely)
        self.likely.add(key)
        return f'file {case} {key} {case * CASE + left[case]}'

    def key(self, wanted):
        return self.random.choice(sorted(wanted) if wanted and self.random.random() < 0.9 else self.keys)

    def each_page(self):
        """One slide filed and removed by turns, and after each turn another page written out: one is the page that was changed just then."""
        self.last_case += 1
        case, key = self.last_case, self.key(set(self.keys) - self.likely)
        lines = [f'open {case}']
        for turn, page in enumerate(self.in_use):
            lines.append(f'remove {case} {key}' if turn % 2 else f'file {case} {key} {case * CASE + turn}')
            lines.append(f'write-out {page}')
        return [*lines, f'commit {case}']

    def jammed(self):
        """A case of two trays. The second takes out a slide of the first, is taken back, and filed with another slide."""
        self.last_case += 1
        case = self.last_case
        kept, jammed, other = self.random.sample(sorted(set(self.keys) - self.likely), 3)
        return [
            f'open {case}',
            f'file {case} {kept} {case * CASE}',
            f'tray {case}',
            f'file {case} {jammed} {case * CASE + 1}',
            f'remove {case} {kept}',
            f'take-back {case}',
            f'file {case} {other} {case * CASE + 2}',
            f'commit {case}',
        ]
