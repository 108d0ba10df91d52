#!/usr/bin/env python3
"""Makes loop files from descriptions.

    examples/make.py FILE.txt -o FILE.loop    makes a loop file from any description; - is standard input or output
    examples/make.py                          writes NAME.loop for every NAME.txt of examples/
    examples/make.py --check                  says which NAME.loop of examples/ is not what its description makes
    examples/make.py --listings PROG          runs PROG on every NAME.loop and holds what it prints to examples/README.md

A description has a line for each slot, operation and dependence; '#' starts a comment.

    slot NAME NUMBER
    op NAME latency CYCLES SLOT:CYCLES ..          the slots it takes, from its first cycle on
    dep FROM -> TO [delay CYCLES] [distance N]     TO of N iterations later waits for FROM

A SLOT is a number or the name of a slot line above, FROM and TO are names of op lines above. The delay is FROM's
latency and the distance 0 where they are not given. Operations and dependences are numbered from 0 in the order of
their lines.

    operations     1 to 64, each with up to 4 slots whose numbers rise
    dependences    0 to 256
    slot 1 to 24, its cycles 1 to 16, latency 0 to 64, delay -64 to 64, distance 0 to 15

The first mistake in a description is told as FILE:LINE: WORD: what was expected, and no file is written for it.

Status: 0 where all went well; 1 for a mistake in a description, a file that cannot be read or written, or one that
--check or --listings finds different; 2 where the call itself is wrong.
"""
import os
import pathlib
import re
import struct
import subprocess
import sys

HERE = pathlib.Path(__file__).resolve().parent

OPERATIONS, USES, DEPENDENCES = 64, 4, 256
SLOT, DURATION, LATENCY, DELAY, DISTANCE = (1, 24), (1, 16), (0, 64), (-64, 64), (0, 15)


def loop_file(ops, deps):
    """The bytes of a loop file (docs/FORMAT.md). An operation is (latency, [(slot, duration), ..]), a
    dependence (from, to, delay, distance)."""
    bodies = [
        (b"OPER", b"".join(bytes([latency, len(uses)]) for latency, uses in ops)),
        (b"USES", b"".join(bytes(use) for _, uses in ops for use in uses)),
        (b"DEPS", b"".join(struct.pack("BBbB", *dep) for dep in deps)),
    ]
    head = bytes([1, len(bodies)])
    at = len(head) + 8 * len(bodies)
    for tag, body in bodies:
        head += tag + struct.pack("<HH", at, len(body))
        at += len(body)
    return head + b"".join(body for _, body in bodies)


def renumbered(ops, deps, order):
    """The same loop with operation order[i] as operation i."""
    number = {op: i for i, op in enumerate(order)}
    return [ops[op] for op in order], [(number[source], number[target], *rest) for source, target, *rest in deps]


class Mistake(Exception):
    """What is wrong with a description: the line's number, the word as it is told, and what was expected."""

    def __init__(self, line, word, expected):
        super().__init__(f"{line}: {word}: expected {expected}")


class Line:
    """The words of a line, taken one after the other."""

    def __init__(self, number, words):
        self.number, self.words, self.next = number, words, 0

    def more(self):
        return self.next < len(self.words)

    def take(self, expected):
        if not self.more():
            raise Mistake(self.number, "end of line", expected)
        self.next += 1
        return self.words[self.next - 1]

    def wrong(self, expected):
        """The mistake that the word taken last is."""
        return Mistake(self.number, repr(self.words[self.next - 1]), expected)

    def take_word(self, wanted):
        if self.take(f"the word {wanted!r}") != wanted:
            raise self.wrong(f"the word {wanted!r}")

    def take_number(self, what, limits):
        return self.number_in(self.take(ranged(what, limits)), what, limits)

    def number_in(self, text, what, limits):
        if not re.fullmatch(r"-?[0-9]{1,9}", text) or not limits[0] <= int(text) <= limits[1]:
            raise self.wrong(ranged(what, limits))
        return int(text)

    def end(self, expected="the end of the line"):
        if self.more():
            self.take(expected)
            raise self.wrong(expected)


def ranged(what, limits):
    return f"{what}, {limits[0]} to {limits[1]}"


class Description:
    """The operations and dependences of the lines read so far."""

    def __init__(self):
        self.slots, self.numbers, self.ops, self.deps = {}, {}, [], []

    def read_slot(self, line):
        name = line.take("a name for the slot")
        if name in self.slots:
            raise line.wrong("a name that no other slot has")
        if ":" in name or re.fullmatch("-?[0-9]+", name):
            raise line.wrong("a name for the slot: no number, and without ':'")
        self.slots[name] = line.take_number("the slot's number", SLOT)
        line.end()

    def read_op(self, line):
        if len(self.ops) == OPERATIONS:
            raise line.wrong(f"no further operation: a loop has 1 to {OPERATIONS}")
        name = line.take("a name for the operation")
        if name in self.numbers:
            raise line.wrong("a name that no other operation has")
        line.take_word("latency")
        latency = line.take_number("a latency", LATENCY)
        uses = []
        while line.more() and len(uses) < USES:
            uses.append(self.use(line, uses))
        line.end(f"the end of the line: an operation has up to {USES} slots")
        self.numbers[name] = len(self.ops)
        self.ops.append((latency, uses))

    def use(self, line, before):
        slot, colon, duration = line.take("SLOT:CYCLES").partition(":")
        if not colon:
            raise line.wrong("SLOT:CYCLES")
        if slot in self.slots:
            number = self.slots[slot]
        else:
            number = line.number_in(slot, "before ':' the name of a slot line above or a slot's number", SLOT)
        if before and number <= before[-1][0]:
            raise line.wrong(f"a slot above {before[-1][0]}, the one before (this is slot {number})")
        return number, line.number_in(duration, "after ':' a number of cycles", DURATION)

    def read_dep(self, line):
        if len(self.deps) == DEPENDENCES:
            raise line.wrong(f"no further dependence: a loop has 0 to {DEPENDENCES}")
        source = self.operation(line)
        line.take_word("->")
        target = self.operation(line)
        given = {"delay": DELAY, "distance": DISTANCE}
        values = {"delay": self.ops[source][0], "distance": 0}
        while line.more():
            expected = " or ".join([*map(repr, given), "the end of the line"])
            word = line.take(expected)
            if word not in given:
                raise line.wrong(expected)
            values[word] = line.take_number(f"a {word}", given.pop(word))
        self.deps.append((source, target, values["delay"], values["distance"]))

    def operation(self, line):
        expected = "the name of an op line above"
        name = line.take(expected)
        if name not in self.numbers:
            raise line.wrong(expected)
        return self.numbers[name]


def described(text):
    """The operations and dependences of a description."""
    found = Description()
    readers = {"slot": found.read_slot, "op": found.read_op, "dep": found.read_dep}
    lines = text.split("\n")
    for number, content in enumerate(lines, 1):
        line = Line(number, content.split("#")[0].split())
        if line.more():
            kind = line.take("a word")
            if kind not in readers:
                raise line.wrong("'slot', 'op' or 'dep'")
            readers[kind](line)
    if not found.ops:
        raise Mistake(len(lines) - (len(lines) > 1 and not lines[-1]), "end of file", f"an operation: a loop has 1 to {OPERATIONS}")
    return found.ops, found.deps


def made(content):
    """The loop file of a description's bytes."""
    try:
        text = content.decode("utf-8")
    except UnicodeDecodeError as error:
        line = content.count(b"\n", 0, error.start) + 1
        raise Mistake(line, f"byte {content[error.start]:#04x}", "text in UTF-8") from None
    return loop_file(*described(text.removeprefix("\ufeff")))


def say(text):
    print(text, file=sys.stderr)


def tried(name, step):
    """What the step gives, or None after saying why there is nothing. The name is that of the file it works on."""
    try:
        return step()
    except Mistake as mistake:
        say(f"{name}:{mistake}")
    except OSError as error:
        say(f"{name}: {error.strerror}")
    return None


def make_one(source, target):
    """Makes one loop file; whether that went well."""
    if source == "-":
        content = tried("standard input", sys.stdin.buffer.read)
    else:
        content = tried(source, pathlib.Path(source).read_bytes)
    if content is None:
        return False
    loop = tried("standard input" if source == "-" else source, lambda: made(content))
    if loop is None:
        return False
    if target == "-":
        return tried("standard output", lambda: (sys.stdout.buffer.write(loop), sys.stdout.buffer.flush())) is not None
    return tried(target, lambda: pathlib.Path(target).write_bytes(loop)) is not None


def check_one(name):
    """Whether NAME.loop of this folder is what its description makes."""
    source, path = HERE / f"{name}.txt", HERE / f"{name}.loop"
    loop = tried(os.path.relpath(source), lambda: made(source.read_bytes()))
    if loop is None:
        return False
    same = path.exists() and path.read_bytes() == loop
    if not same:
        print(f"{name}.loop is not what {name}.txt makes")
    return same


def listings():
    """What README.md says that `schedule` prints, by the file's name: the last block under its heading."""
    readme = (HERE / "README.md").read_text(encoding="utf-8")
    parts = re.split(r"^## `(\w+)\.loop`.*$", readme, flags=re.M)[1:]
    blocks = {name: re.findall(r"^```\n(.*?)^```$", part, flags=re.M | re.S) for name, part in zip(parts[::2], parts[1::2])}
    return {name: found[-1] if found else "" for name, found in blocks.items()}


def list_one(name, program, told):
    """Whether the program prints for NAME.loop of this folder what README.md says."""
    with open(HERE / f"{name}.loop", "rb") as file:
        printed = subprocess.run([program], stdin=file, stdout=subprocess.PIPE, check=True, text=True).stdout
    same = printed == told.get(name)
    print(f"{name}.loop: {'as in README.md' if same else 'README.md has another listing; printed:'}")
    if not same:
        print(printed, end="")
    return same


def wrong_call(text):
    say(f"make.py: {text}; examples/make.py --help says how to call it")
    return 2


def main(words):
    names = sorted(path.stem for path in HERE.glob("*.txt"))
    if words in (["-h"], ["--help"]):
        print(__doc__, end="")
        return 0
    if not words:
        here = os.path.relpath(HERE)
        well = [make_one(os.path.join(here, f"{name}.txt"), os.path.join(here, f"{name}.loop")) for name in names]
    elif words == ["--check"]:
        well = [check_one(name) for name in names]
    elif words[0] == "--listings" and len(words) == 2:
        told = listings()
        well = [list_one(name, words[1], told) for name in names]
    else:
        if words[0] == "-o":
            words = words[2:] + words[:2]
        if len(words) != 3 or words[1] != "-o" or (words[0].startswith("-") and words[0] != "-"):
            return wrong_call("expected FILE.txt -o FILE.loop")
        source, _, target = words
        if "-" not in (source, target) and os.path.exists(target) and os.path.exists(source) and os.path.samefile(source, target):
            return wrong_call(f"{target} is the description itself")
        well = [make_one(source, target)]
    return 0 if all(well) else 1


if __name__ == "__main__":
    sys.exit(main(sys.argv[1:]))
