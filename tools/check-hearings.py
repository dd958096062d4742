#!/usr/bin/env python3
"""Prints the text of each hearings file named, by trying messages: slow, and apart from all code of the library.

It follows the pages of docs/ alone: a list is found by scoring every message, for the brine by scoring each message that four
places give. With --compare it compares each FILE.hearings with FILE.expected, and its status is 1 where they differ.
"""
import itertools
import sys

ROOM = 256


class Prime:
    def __init__(self, p):
        self.family, self.size = 1, p

    def add(self, a, b):
        return (a + b) % self.size

    def subtract(self, a, b):
        return (a - b) % self.size

    def multiply(self, a, b):
        return a * b % self.size


class Binary:
    def __init__(self, m, modulus):
        self.family, self.size, self.modulus = 2, 1 << m, modulus
        self.products = [[self.product(a, b) for b in range(self.size)] for a in range(self.size)]

    def product(self, a, b):
        answer = 0
        while b:
            if b & 1:
                answer ^= a
            a <<= 1
            if a >= self.size:
                a ^= self.modulus
            b >>= 1
        return answer

    def add(self, a, b):
        return a ^ b

    subtract = add

    def multiply(self, a, b):
        return self.products[a][b]


def inverse(field, a):
    return next(b for b in range(field.size) if field.multiply(a, b) == 1)


class OutOfReach(Exception):
    def __init__(self, level, place):
        self.level, self.place = level, place


class ReedSolomon:
    def __init__(self, field, n, k):
        self.field, self.n, self.k = field, n, k
        self.q = self.p = field.size
        self.family, self.top = field.family, n
        self.least = next(t for t in range(k, n + 1) if all(self.in_reach(n, u) for u in range(t, n + 1)))

    def in_reach(self, load, t):
        for r in range(1, 5):
            d = r * t - 1
            if d <= 63:
                count = sum(1 for j in range(16) for i in range(d + 1) if i + (self.k - 1) * j <= d)
                if count > load * r * (r + 1) // 2:
                    return True
        return False

    def word(self, message):
        word = []
        for x in range(self.n):
            value = 0
            for letter in reversed(message):
                value = self.field.add(self.field.multiply(value, x), letter)
            word.append(value)
        return word

    def through(self, points):
        """The message whose word has these letters at these k places: Lagrange's form."""
        f = self.field
        message = [0] * self.k
        for x, y in points:
            term = [y]
            for u, _ in points:
                if u != x:
                    scale = inverse_of(f, f.subtract(x, u))
                    low = [f.multiply(f.multiply(f.subtract(0, u), scale), c) for c in term] + [0]
                    high = [0] + [f.multiply(scale, c) for c in term]
                    term = [f.add(a, b) for a, b in zip(low, high)]
            message = [f.add(a, b) for a, b in zip(message, term)]
        return tuple(message)

    def candidates(self, sheet, t):
        if self.p ** self.k <= 1 << 16:
            return itertools.product(range(self.p), repeat=self.k)
        # a message that agrees at t places does so at k of the first n - t + k
        found = set()
        for places in itertools.combinations(range(self.n - t + self.k), self.k):
            for letters in itertools.product(*(sorted(sheet[x]) for x in places)):
                found.add(self.through(list(zip(places, letters))))
        return sorted(found)

    def listed(self, sheet, t):
        if not self.in_reach(sum(map(len, sheet)), t):
            raise OutOfReach(0, 0)
        if t < self.k:
            raise ValueError('too many candidates')
        return [m for m in self.candidates(sheet, t) if score(self.word(m), sheet) >= t]


INVERSES = {}


def inverse_of(field, a):
    key = (field.family, field.size, a)
    if key not in INVERSES:
        INVERSES[key] = inverse(field, a)
    return INVERSES[key]


class Generator:
    def __init__(self, field, rows):
        self.field, self.rows = field, rows
        self.k, self.n = len(rows), len(rows[0])
        self.q = self.p = field.size
        self.family, self.top = field.family, self.n
        weights = [sum(map(bool, self.word(m))) for m in itertools.product(range(self.p), repeat=self.k) if any(m)]
        self.least = self.n - min(weights) + 1

    def word(self, message):
        word = [0] * self.n
        for letter, row in zip(message, self.rows):
            word = [self.field.add(w, self.field.multiply(letter, r)) for w, r in zip(word, row)]
        return word

    def listed(self, sheet, t):
        messages = itertools.product(range(self.p), repeat=self.k)
        return [m for m in messages if score(self.word(m), sheet) >= t]


class Concatenated:
    def __init__(self, outer, inner, agreement):
        self.outer, self.inner, self.agreement = outer, inner, agreement
        self.k, self.p, self.top, self.least = outer.k, outer.p, outer.top, outer.least
        self.n, self.q, self.family = outer.n * inner.n, inner.q, inner.family

    def message(self, number):
        letters = []
        for _ in range(self.inner.k):
            letters.append(number % self.inner.p)
            number //= self.inner.p
        return tuple(reversed(letters))

    def word(self, message):
        return [l for number in self.outer.word(message) for l in self.inner.word(self.message(number))]

    def lifted(self, sheet):
        lifted = []
        for start in range(0, self.n, self.inner.n):
            try:
                messages = self.inner.listed(sheet[start:start + self.inner.n], self.agreement)
            except OutOfReach as out:
                raise OutOfReach(out.level + 1, start + out.place)
            lifted.append({sum(l * self.inner.p ** i for i, l in enumerate(reversed(m))) for m in messages})
        return lifted

    def listed(self, sheet, t):
        lifted = self.lifted(sheet)
        try:
            return self.outer.listed(lifted, t)
        except OutOfReach as out:
            raise OutOfReach(out.level, out.place * self.inner.n)


def score(word, sheet):
    return sum(letter in letters for letter, letters in zip(word, sheet))


BLOCK = [[int(b) for b in row] for row in ('10000111', '01001011', '00101101', '00011110')]
SIXTEEN = Binary(4, 0x13)
CODES = {
    1: Concatenated(ReedSolomon(SIXTEEN, 15, 4), Generator(Prime(2), BLOCK), 6),
    2: ReedSolomon(Prime(11), 10, 3),
    3: Concatenated(ReedSolomon(Binary(8, 0x11D), 24, 4), ReedSolomon(SIXTEEN, 8, 2), 4),
}
BODIES = {1: 1, 2: 2, 3: 1, 4: 1}


def refused(number, at, more=''):
    return f'refused {number} at {at}{more}\n'


def choose(number, code, at):
    if number not in CODES:
        return code, refused(14, at)
    if code:
        return code, refused(24, at)
    code = CODES[number]
    return code, (f'code {number} family {code.family} letters {code.q} places {code.n} '
                  f'top {code.top} least {code.least}\n')


def list_lines(code, sheet, t, at):
    if not 1 <= t <= code.top:
        return refused(7, at)
    try:
        messages = code.listed(sheet, t)
    except OutOfReach as out:
        return refused(20, at, f' level {out.level} place {out.place}')
    assert len(messages) * code.k <= ROOM
    return f'list {t} {len(messages)}\n' + ''.join(' '.join(map(str, m)) + '\n' for m in messages)


def call(code, sheet, kind, body, at):
    if kind == 4:
        return list_lines(code, sheet, body[0], at)
    if body[0] >= code.n:
        return refused(5, at)
    if kind == 2:
        if body[1] >= code.q:
            return refused(6, at)
        sheet[body[0]].add(body[1])
        return ''
    if not sheet[body[0]]:
        return refused(22, at)
    sheet[body[0]].clear()
    return ''


def text(file):
    if len(file) > 65536:
        return refused(13, 65536)
    printed, code, sheet, at = '', None, None, 0
    while at < len(file):
        kind = file[at]
        if kind not in BODIES:
            return printed + refused(11, at)
        body = file[at + 1:at + 1 + BODIES[kind]]
        if len(body) < BODIES[kind]:
            return printed + refused(12, at)
        if kind == 1:
            before = code
            code, lines = choose(body[0], code, at)
            if code is not before:
                sheet = [set() for _ in range(code.n)]
        elif code is None:
            lines = refused(23, at)
        else:
            lines = call(code, sheet, kind, body, at)
        printed += lines
        at += 1 + len(body)
    return printed


def main(arguments):
    compare = arguments[:1] == ['--compare']
    differing = 0
    for name in arguments[compare:]:
        with open(name, 'rb') as opened:
            found = text(opened.read())
        if not compare:
            sys.stdout.write(found)
            continue
        with open(name.removesuffix('.hearings') + '.expected') as opened:
            same = opened.read() == found
        print(f'{name}: {"the same" if same else "another text"}')
        differing += not same
    return 1 if differing else 0


if __name__ == '__main__':
    sys.exit(main(sys.argv[1:]))
