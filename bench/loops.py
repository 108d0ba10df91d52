#!/usr/bin/env python3
"""Makes the loops of the benchmarks.

    bench/loops.py FOLDER        writes window-8.loop, window-24.loop, .. to FOLDER

Most are hard: searches that use up the 1,000,000 probes of a request. None of these has a legal list at the first
interval that is tried, and to find this out would take far more than 1,000,000 probes, so each search ends in
`refused 11` at that interval. The three kinds differ in what excludes most starts.

window     The operations stand in a chain, each so long after the one before that the chain does not fit
           below the horizon. The windows exclude nearly every start. A delay is at most 64, so there is no
           such loop for a horizon of 4,096.
conflict   Each operation takes slot 1 for 3 cycles and the interval is 3 times their number, so slot 1 has no
           cycle to spare and all starts have the same remainder by 3. Three quarters of the operations also
           take slot 2 for 4 cycles, which then keeps two places of slot 1 from the others of that kind: only half
           could have it. There is no dependence, and the rows exclude nearly every start.
mixed      The same with longer uses and on four slots, and each operation has to start within 64 cycles of
           the two before it. Windows exclude somewhat more than half of the starts below 256, rows most others.

Two are for other calls of the library.

largest    As much as a loop file can hold: 64 operations, 256 uses, 256 dependences. The operations stand in a
           ring with a delay of 64 at each step and one distance of 1, so the recurrence bound is 4,096; further
           dependences go two, three and five steps along the ring and ask for less. Those that lead from
           late operations stand first, so that a round over them raises few path lengths for good.
busy       For sessions: 32 operations with a use of 2 cycles and one of 1, 24 slots, and 83 dependences that
           random starts often meet. No use is longer than 2 cycles and no start of 6 or less breaks
           a dependence with a distance, so that sessions with starts below 7 answer alike at every
           interval from 8 on.
"""
import pathlib
import sys

sys.dont_write_bytecode = True
sys.path.insert(0, str(pathlib.Path(__file__).resolve().parent.parent / "examples"))
from make import loop_file

SIZES = (8, 24, 64)


def window(n, horizon=256):
    step = (horizon - 1) // (n - 1) + 1
    return [(1, [(1, 1)])] * n, [(i, i + 1, step, 0) for i in range(n - 1)]


def conflict(n):
    wide = 3 * n // 4
    return [(1, [(1, 3)])] * (n - wide) + [(1, [(1, 3), (2, 4)])] * wide, []


def mixed(n):
    wide = 3 * n // 4
    d = min(15, 256 // n)
    few, more = [(1, d), (3, d - 1), (4, 2)], [(1, d), (2, d + 1), (3, d - 1), (4, 2)]
    near = [(a, b) for a in range(n) for b in (a + 1, a + 2) if b < n]
    deps = [(x, y, -64, 0) for a, b in near for x, y in ((a, b), (b, a))]
    return [(1, few)] * (n - wide) + [(1, more)] * wide, deps


def largest():
    n = 64
    ops = [(64, [(1 + i % 6 + 6 * j, 16) for j in range(4)]) for i in range(n)]
    return ops, [(i, (i + k) % n, 64, int(i + k >= n)) for k in (1, 2, 3, 5) for i in reversed(range(n))]


def busy():
    n = 32
    ops = [(2, [(1 + i % 12, 2), (13 + 5 * i % 12, 1)]) for i in range(n)]
    near, far = [(i, i + 1, -1, 0) for i in range(n - 1)], [(i, i + 5, -3, 0) for i in range(n - 5)]
    return ops, near + far + [(i + 7, i, 2, 1) for i in range(n - 7)]


def put(folder, name, loop):
    """Writes a loop to a folder; its path."""
    folder.mkdir(parents=True, exist_ok=True)
    path = folder / f"{name}.loop"
    path.write_bytes(loop_file(*loop))
    return path


def write(folder):
    """Writes the loops for whole programs, at a horizon of 256; their paths."""
    return [put(folder, f"{kind.__name__}-{n}", kind(n)) for kind in (window, conflict, mixed) for n in SIZES]


def rows(folder):
    """Writes the loops for the library's calls; the rows of its table, in the words of bench/library.rs."""
    near, far = (put(folder, f"window-24-below-{horizon}", window(24, horizon)) for horizon in (64, 256))
    others = [put(folder, f"{kind.__name__}-24", kind(24)) for kind in (conflict, mixed)]
    hard = {64: [near] + others, 256: [far] + others, 4096: others}
    session, most = (put(folder, loop.__name__, loop()) for loop in (busy, largest))
    return (
        [["search", horizon, path] for horizon, paths in hard.items() for path in paths]
        + [["write", path] for path in (session, most)]
        + [["bounds", most]]
        + [["session", interval, spread, session] for interval, spread in ((8, 7), (4096, 7), (4096, 4096))]
        + [["open", interval, session] for interval in (8, 4096)]
    )


if __name__ == "__main__":
    if len(sys.argv) != 2:
        sys.exit(__doc__)
    write(pathlib.Path(sys.argv[1]))
    rows(pathlib.Path(sys.argv[1]))
