#!/usr/bin/env python3
"""Makes loops like those of a filter compiler: 200 of them, each in two numberings.

    bench/filters.py FOLDER [SEED]      writes FOLDER/own/NAME.loop and FOLDER/shuffled/NAME.loop

Everything is drawn from the seed, so the same seed makes the same files. A loop works on one sample an iteration and
has 8 to 64 operations. Its own numbering is the order in which a compiler emits the operations: values as they come
about, section by section, so that within an iteration nothing is used before it is made. Shuffled is the same loop
with its operations numbered by a permutation drawn at random.

The kinds take turns:

direct1, direct2, transposed     one to six biquad sections in that form, one after the other
bank           two to five such sections side by side, summed or each stored
fir            taps with the old samples in registers: direct, symmetric or transposed
line           taps with the old samples in memory: the newest is stored, the others are loaded
lattice        all-pole, all-zero, or all-pole with a ladder
variable       state-variable filters, by Chamberlin or by the trapezoidal rule, on one or two channels
mixer          channels with gains that a one-pole filter smooths, to one or two outputs
reverb         combs and all-passes over delay lines in memory, or an echo read between two samples
strip          what a mixer has in each channel: a DC blocker, sections, a state-variable filter, a gain, an echo

Each loop has a core of its own, that is latencies and slots: a multiplier (which takes an operation every cycle, or
every second or third), an adder, a load and a store port, in half of the cores one memory bus behind both ports.
It also has a way of compiling: sums of products by multiply-accumulate or by products and sums; coefficients in
registers or loaded each time; a product with an old sample made when that sample is there or when it is wanted.

A dependence waits for the latency of the operation that it comes from. The one exception is a place in memory that is
read and then written: there the store comes a cycle after the load or later.
"""
import pathlib
import random
import sys

sys.dont_write_bytecode = True
from loops import put
from make import DEPENDENCES, OPERATIONS, renumbered

SEED = 201
LOOPS = 200
LEAST = 8  # operations
MULTIPLIER, ADDER, LOAD, STORE, BUS = 1, 2, 3, 4, 5


def draw_core(chance):
    """The operations of a signal processor: the latency of each, and the slots that it holds for how many cycles."""
    multiply, add, access = chance.choice((1, 1, 1, 2, 2, 3)), chance.choice((1, 1, 1, 2)), chance.choice((1, 1, 2))
    product = chance.randint(max(2, multiply), 5)
    bus = [(BUS, access)] if chance.random() < 0.5 else []
    return {
        "multiply": (product, [(MULTIPLIER, multiply)]),
        "accumulate": (min(5, product + 1), [(MULTIPLIER, multiply), (ADDER, add)]),
        "add": (chance.randint(add, 3), [(ADDER, add)]),
        "load": (chance.randint(max(2, access), 5), [(LOAD, access)] + bus),
        "store": (chance.randint(access, 2), [(STORE, access)] + bus),
    }


class Value:
    """What an operation makes. Of a state it is known only later in the iteration which operation that is."""

    def __init__(self, number=None):
        self.number = number
        self.products = []  # the products that wait for it


class Program:
    """A loop as it is emitted, operation after operation. An operand is a value, or (value, how many samples ago)."""

    def __init__(self, chance):
        self.core = draw_core(chance)
        self.fused = chance.random() < 0.4  # sums of products by multiply-accumulate
        self.loaded = chance.random() < 0.25  # coefficients are loaded each time
        self.early = chance.random() < 0.5  # a product with an old sample is made when that sample is there
        self.ops, self.waits = [], []

    def emit(self, kind, *operands):
        latency_and_slots = self.core[kind]
        value = Value(len(self.ops))
        self.ops.append(latency_and_slots)
        for operand in operands:
            source, distance = operand if isinstance(operand, tuple) else (operand, 0)
            self.waits.append((source, value, None, distance))
        return value

    def make(self, state, value):
        """Says which value a state has; the products that wait for it are made. The value."""
        state.number = value.number
        for product in state.products:
            product.number = self.scale(state).number
        state.products = []
        return value

    def load(self, *operands):
        return self.emit("load", *operands)

    def store(self, operand):
        return self.emit("store", operand)

    def add(self, one, other):
        return self.emit("add", one, other)

    def coefficient(self):
        """The operands that a product with a coefficient has beside its sample."""
        return [self.load()] if self.loaded else []

    def scale(self, operand):
        """A coefficient times an operand."""
        return self.emit("multiply", operand, *self.coefficient())

    def term(self, value, distance):
        """A coefficient times the value of some samples ago, as an operand."""
        if distance == 0 or not self.early:
            return self.scale((value, distance))
        if value.number is not None:
            return self.scale(value), distance
        product = Value()
        value.products.append(product)
        return product, distance

    def weighted(self, terms, onto=None):
        """The operand `onto`, where there is one, and coefficients times the terms, each (value, distance), summed one after the other."""
        for value, distance in terms:
            if onto is None:
                onto = self.term(value, distance) if not self.fused else self.scale((value, distance))
            elif self.fused:
                onto = self.emit("accumulate", (value, distance), onto, *self.coefficient())
            else:
                onto = self.add(onto, self.term(value, distance))
        return onto

    def tree(self, operands):
        """The sum of operands, by pairs."""
        while len(operands) > 1:
            odd = operands[len(operands) & ~1 :]
            operands = [self.add(*pair) for pair in zip(operands[::2], operands[1::2])] + odd
        return operands[0]

    def overwrite(self, old, operand):
        """Stores an operand where a value was loaded from."""
        kept = self.store(operand)
        self.waits.append((old, kept, 1, 0))
        return kept

    def loop(self):
        """The operations and dependences, as a loop file has them."""
        return self.ops, [
            (source.number, target.number, self.ops[source.number][0] if delay is None else delay, distance)
            for source, target, delay, distance in self.waits
        ]


# Sections: from the value of a sample to that of the filtered one.


def direct1(p, x):
    """y[n] = b0 x[n] + b1 x[n-1] + b2 x[n-2] - a2 y[n-2] - a1 y[n-1]"""
    y = Value()
    p.make(y, p.weighted([(x, 0), (x, 1), (x, 2), (y, 2), (y, 1)]))
    return y


def direct2(p, x):
    """w[n] = x[n] - a2 w[n-2] - a1 w[n-1], y[n] = b0 w[n] + b1 w[n-1] + b2 w[n-2]"""
    w = Value()
    p.make(w, p.weighted([(w, 2), (w, 1)], x))
    return p.weighted([(w, 0), (w, 1), (w, 2)])


def transposed(p, x):
    """y[n] = b0 x[n] + s[n-1], s[n] = b1 x[n] - a1 y[n] + t[n-1], t[n] = b2 x[n] - a2 y[n]"""
    s, t = Value(), Value()
    y = p.weighted([(x, 0)], (s, 1))
    p.make(s, p.weighted([(x, 0), (y, 0)], (t, 1)))
    p.make(t, p.weighted([(x, 0), (y, 0)]))
    return y


def chamberlin(p, x):
    """low[n] = low[n-1] + f band[n-1], high[n] = x[n] - low[n] - q band[n-1], band[n] = band[n-1] + f high[n]; low"""
    low, band = Value(), Value()
    p.make(low, p.weighted([(band, 1)], (low, 1)))
    high = p.weighted([(band, 1)], p.add(x, low))
    p.make(band, p.weighted([(high, 0)], (band, 1)))
    return low


def trapezoidal(p, x):
    """With the states r and s: d = x - s[n-1], v = a1 r[n-1] + a2 d, low = s[n-1] + a2 r[n-1] + a3 d,
    r[n] = 2 v - r[n-1], s[n] = 2 low - s[n-1]; low"""
    r, s = Value(), Value()
    d = p.add(x, (s, 1))
    v = p.weighted([(r, 1), (d, 0)])
    low = p.weighted([(r, 1), (d, 0)], (s, 1))
    p.make(r, p.weighted([(v, 0)], (r, 1)))
    p.make(s, p.weighted([(low, 0)], (s, 1)))
    return low


def blocker(p, x):
    """y[n] = x[n] - x[n-1] + r y[n-1]"""
    y = Value()
    p.make(y, p.weighted([(y, 1)], p.add(x, (x, 1))))
    return y


def smoothed(p):
    """A gain on the way to its target, which is loaded: g[n] = g[n-1] + a (target - g[n-1])"""
    gain = Value()
    step = p.add(p.load(), (gain, 1))
    p.make(gain, p.weighted([(step, 0)], (gain, 1)))
    return gain


def comb(p, x):
    """A delay line that is fed back through a one-pole filter; longer than any distance, so that only its place is waited for."""
    old, damped = p.load(), Value()
    p.make(damped, p.weighted([(old, 0), (damped, 1)]))
    p.overwrite(old, p.weighted([(damped, 0)], x))
    return old


def allpass(p, x):
    old = p.load()
    y = p.weighted([(x, 0)], old)
    p.overwrite(old, p.weighted([(y, 0)], x))
    return y


def echo(p, x):
    """A long delay line, read between two samples and fed back."""
    old, next_to = p.load(), p.load()
    between = p.weighted([(p.add(next_to, old), 0)], old)
    p.overwrite(old, p.weighted([(between, 0)], x))
    return p.weighted([(between, 0)], x)


BIQUADS = (direct1, direct2, transposed)
VARIABLE = (chamberlin, trapezoidal)


# Kinds: each emits a whole loop, from the loads to the stores.


def serial(section):
    def kind(p, chance):
        x = p.load()
        for _ in range(chance.randint(1, 6)):
            x = section(p, x)
        p.store(x)

    return kind


def bank(p, chance):
    x, section = p.load(), chance.choice(BIQUADS)
    bands = [section(p, x) for _ in range(chance.randint(2, 5))]
    for out in bands if chance.random() < 0.4 else [p.weighted([(band, 0) for band in bands])]:
        p.store(out)


def fir(p, chance):
    x, taps, form = p.load(), chance.randint(4, 16), chance.choice(("direct", "symmetric", "transposed"))
    if form == "transposed":
        y = p.scale(x)
        for _ in range(taps - 1):
            y = p.weighted([(x, 0)], (y, 1))
    elif form == "symmetric":
        y = p.weighted([(p.add((x, k), (x, taps - 1 - k)), 0) for k in range(taps // 2)])
    else:
        y = add_taps(p, chance, [(x, k) for k in range(taps)])
    p.store(y)


def line(p, chance):
    x = p.load()
    kept = p.store(x)
    taps = [(x, 0)] + [(p.load((kept, k)), 0) for k in range(1, chance.randint(3, 15))]
    p.store(add_taps(p, chance, taps))


def add_taps(p, chance, taps):
    """Coefficients times taps, summed by pairs or one after the other."""
    if chance.random() < 0.5 and not p.fused:
        return p.tree([p.term(*tap) for tap in taps])
    return p.weighted(taps)


def lattice(p, chance):
    x, order, form = p.load(), chance.randint(2, 8), chance.choice(("pole", "zero", "ladder"))
    if form == "zero":
        p.store(all_zero(p, x, order))
        return
    y, g = all_pole(p, x, order)
    p.store(p.weighted([(value, 0) for value in g]) if form == "ladder" else y)


def all_pole(p, f, order):
    """f_i[n] = f_(i+1)[n] - k g_i[n-1], g_(i+1)[n] = g_i[n-1] + k f_i[n], g_0 = f_0; f_0 and the g of this sample"""
    g = [Value() for _ in range(order)]
    for i in reversed(range(order)):
        f = p.weighted([(g[i], 1)], f)
        if i + 1 < order:
            p.make(g[i + 1], p.weighted([(f, 0)], (g[i], 1)))
    p.make(g[0], f)
    return f, g


def all_zero(p, x, order):
    """f_(i+1)[n] = f_i[n] + k g_i[n-1], g_(i+1)[n] = g_i[n-1] + k f_i[n], both from x; the last f"""
    f = g = x
    for i in range(order):
        up = p.weighted([(g, 1)], f)
        if i + 1 < order:
            g = p.weighted([(f, 0)], (g, 1))
        f = up
    return f


def variable(p, chance):
    section, sections = chance.choice(VARIABLE), chance.randint(1, 4)
    for _ in range(chance.randint(1, 2)):
        x = p.load()
        for _ in range(sections):
            x = section(p, x)
        p.store(x)


def mixer(p, chance):
    outputs = [None] * chance.randint(1, 2)
    for _ in range(chance.randint(2, 8)):
        x = p.load()
        outputs = [mix(p, x, total) for total in outputs]
    for total in outputs:
        p.store(total)


def mix(p, x, total):
    """A sum of channels with one more, at its gain."""
    gain = smoothed(p)
    if total is None:
        return p.emit("multiply", x, gain)
    if p.fused:
        return p.emit("accumulate", x, gain, total)
    return p.add(p.emit("multiply", x, gain), total)


def reverb(p, chance):
    x = p.load()
    if chance.random() < 0.3:
        x = echo(p, x)
    combs = [comb(p, x) for _ in range(chance.randint(1, 4))]
    x = p.tree(combs)
    for _ in range(chance.randint(1, 3)):
        x = allpass(p, x)
    p.store(x)


def strip(p, chance):
    x = blocker(p, p.load())
    section = chance.choice(BIQUADS)
    for _ in range(chance.randint(1, 3)):
        x = section(p, x)
    if chance.random() < 0.5:
        x = chance.choice(VARIABLE)(p, x)
    x = p.emit("multiply", x, smoothed(p))
    if chance.random() < 0.5:
        x = echo(p, x)
    p.store(x)


KINDS = {section.__name__: serial(section) for section in BIQUADS}
KINDS |= {kind.__name__: kind for kind in (bank, fir, line, lattice, variable, mixer, reverb, strip)}


def fits(loop):
    ops, deps = loop
    return LEAST <= len(ops) <= OPERATIONS and len(deps) <= DEPENDENCES


def longest(loop):
    """The most cycles for which an operation holds a slot."""
    return max(duration for _, uses in loop[0] for _, duration in uses)


def draw(kind, chance):
    """A loop of a kind: the first drawn that a loop file can hold."""
    while True:
        program = Program(chance)
        KINDS[kind](program, chance)
        if fits(program.loop()):
            return program.loop()


def filters(seed):
    """The loops of a seed: of each its name, and the loop in its own numbering and shuffled."""
    for i in range(LOOPS):
        kind = list(KINDS)[i % len(KINDS)]
        chance = random.Random(f"{seed} {i}")
        loop = draw(kind, chance)
        order = list(range(len(loop[0])))
        chance.shuffle(order)
        yield f"{kind}-{i}", loop, renumbered(*loop, order)


def write(folder, seed=SEED):
    """Writes the loops of a seed; of each its path in its own numbering and its path shuffled."""
    return [(put(folder / "own", name, own), put(folder / "shuffled", name, other)) for name, own, other in filters(seed)]


if __name__ == "__main__":
    if len(sys.argv) not in (2, 3):
        sys.exit(__doc__)
    write(pathlib.Path(sys.argv[1]), *map(int, sys.argv[2:]))
