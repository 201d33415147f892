#!/usr/bin/env python3
"""Small random books, planned by trying every policy that may look at its whole past.

Writes cases NNN.in and NNN.out into a folder: a book file and a script of the desk, and what the desk is to print
(docs/FORMAT.md). It knows the rules of docs/RULES.md and nothing of the code: a value is computed for each policy
from its definition, a policy being a remedy for every history and condition, and the greatest is taken.

    scripts/small_books.py FOLDER [CASES] [SEED]
"""
import itertools
import os
import random
import sys

FEWEST_POLICIES = 8
MOST_POLICIES = 20000


class Book:
    """Shares, amounts and worths; every visit alike."""

    def __init__(self, rng):
        self.conditions = rng.choice([1, 2, 2, 2, 2, 3])
        self.remedies = rng.choice([1, 2, 2, 3])
        self.parts = rng.choice([1, 2, 3, 4, 6])
        self.shares, self.amounts = {}, {}
        for s in range(self.conditions):
            kept = rng.sample(range(self.remedies), rng.randint(1, self.remedies))
            for r in sorted(kept):
                for _ in range(self.parts):
                    j = rng.randrange(self.conditions)
                    self.shares[s, r, j] = self.shares.get((s, r, j), 0) + 1
                for j in range(self.conditions):
                    if (s, r, j) in self.shares:
                        self.amounts[s, r, j] = rng.randint(-4, 4)
        self.worths = [rng.randint(-3, 3) for _ in range(self.conditions)]

    def file(self):
        lines = [['B', self.conditions, self.remedies, self.parts]]
        for key in sorted(self.shares):
            lines.append(['R', *key, self.shares[key], self.amounts[key]])
        lines += [['C', s, w] for s, w in enumerate(self.worths)]
        return lines + [['E']]


class Sheet:
    """A book with bars (condition, remedy, first, last) and surcharges (remedy, amount, first, last)."""

    def __init__(self, book):
        self.book, self.bars, self.surcharges = book, [], []

    def offered(self, n, s, r):
        barred = any(c == s and x == r and f <= n <= l for c, x, f, l in self.bars)
        return not barred and any((s, r, j) in self.book.shares for j in range(self.book.conditions))

    def amount(self, n, s, r, j):
        more = sum(a for x, a, f, l in self.surcharges if x == r and f <= n <= l)
        return self.book.amounts.get((s, r, j), 0) + more


def histories(book, past):
    steps = list(itertools.product(range(book.conditions), range(book.remedies)))
    return list(itertools.product(steps, repeat=past))


def stuck_place(sheet, visits):
    """The first visit and condition in which nothing is offered."""
    for n in range(1, visits + 1):
        for s in range(sheet.book.conditions):
            if not any(sheet.offered(n, s, r) for r in range(sheet.book.remedies)):
                return n, s
    return None


def decisions(sheet, visits):
    """Every history and condition in which a policy has to choose, and what it may choose from."""
    book = sheet.book
    places, choices = [], []
    for past in range(visits):
        for h in histories(book, past):
            for s in range(book.conditions):
                places.append((h, s))
                choices.append([r for r in range(book.remedies) if sheet.offered(past + 1, s, r)])
    return places, choices


def values_of(sheet, letter, visits, policy):
    """The value of a policy after every history in every condition, by its definition."""
    book, value = sheet.book, {}

    def at(h, s):
        if (h, s) not in value:
            value[h, s] = fresh(h, s)
        return value[h, s]

    def fresh(h, s):
        if len(h) == visits:
            return book.worths[s]
        n, left = len(h) + 1, visits - len(h)
        r = policy[h, s]
        later = h + ((s, r),)
        coming = [j for j in range(book.conditions) if (s, r, j) in book.shares]
        if letter == 'M':
            return sum(
                book.shares[s, r, j] * (book.parts ** (left - 1) * sheet.amount(n, s, r, j) + at(later, j))
                for j in coming
            )
        return min(sheet.amount(n, s, r, j) + at(later, j) for j in coming)

    for h, s in policy:
        at(h, s)
    return value


def best_of_all(sheet, letter, visits):
    """The greatest value and the lowest remedy with it, at each visit and condition, over all policies."""
    places, choices = decisions(sheet, visits)
    top, named = {}, {}
    for chosen in itertools.product(*choices):
        policy = dict(zip(places, chosen))
        value = values_of(sheet, letter, visits, policy)
        for place, r in policy.items():
            if place not in top or value[place] > top[place]:
                top[place], named[place] = value[place], r
            elif value[place] == top[place]:
                named[place] = min(named[place], r)
    plan = {}
    for (h, s), v in top.items():
        here = plan.setdefault((len(h) + 1, s), (named[h, s], v))
        assert here == (named[h, s], v), 'a plan does not look at the past'
    return plan


def can_be_tried(sheet, visits):
    """Whether there are some policies, and few enough to try all."""
    count = 1
    for options in decisions(sheet, visits)[1]:
        count *= len(options)
    return FEWEST_POLICIES <= count <= MOST_POLICIES


def planned(sheet, letter, visits, line):
    place = stuck_place(sheet, visits)
    if place:
        return [['N', line, 7, 'stuck', *place, 0]]
    plan = best_of_all(sheet, letter, visits)
    return [['P', n, s, *plan[n, s]] for n, s in sorted(plan)] + [['A', line, len(plan)]]


def note(rng, sheet, visits):
    """Enters a bar or a surcharge, and answers its line."""
    first = rng.randint(1, visits)
    last = rng.randint(first, visits)
    r = rng.randrange(sheet.book.remedies)
    if rng.random() < 0.5:
        s = rng.randrange(sheet.book.conditions)
        sheet.bars.append((s, r, first, last))
        return ['bar', s, r, first, last]
    a = rng.randint(-3, 3)
    sheet.surcharges.append((r, a, first, last))
    return ['surcharge', r, a, first, last]


def case(rng):
    """A book with plans before and after some notes, small enough to try all policies."""
    while True:
        book = Book(rng)
        visits = rng.choice([1, 2, 2, 2, 3])
        sheet = Sheet(book)
        if can_be_tried(sheet, visits):
            break
    script, answers = book.file(), []

    def plans():
        for letter in 'MF':
            script.append(['plan', letter, visits])
            answers.extend(planned(sheet, letter, visits, len(script)))

    plans()
    for place in range(1, rng.randint(1, 3) + 1):
        script.append(note(rng, sheet, visits))
        answers.append(['A', len(script), place])
    plans()
    return script, answers


def text(lines):
    return ''.join('\t'.join(map(str, line)) + '\n' for line in lines)


def main():
    folder = sys.argv[1]
    count = int(sys.argv[2]) if len(sys.argv) > 2 else 60
    rng = random.Random(int(sys.argv[3]) if len(sys.argv) > 3 else 20261127)
    os.makedirs(folder, exist_ok=True)
    for k in range(1, count + 1):
        script, answers = case(rng)
        for ending, lines in (('in', script), ('out', answers)):
            with open(os.path.join(folder, f'{k:03}.{ending}'), 'w', encoding='ascii') as file:
                file.write(text(lines))


if __name__ == '__main__':
    main()
