#!/usr/bin/env python3
"""Writes a scenario of sound and damaged layouts: images, logs and flat stores, with puts and loads over them, and
scripts, run alone over them and side by side.

Usage: layouts.py > crates/gorsepick/stdin
"""
from random import Random

TOP = 2**32 - 1


def note(text):
    print(f"# {text}")


def command(*words):
    print(" ".join(str(word) for word in words))


def numbers(*values):
    """Four bytes for each, most significant first, as hexadecimal."""
    return "".join(f"{value:08x}" for value in values)


def image(size, entries):
    return numbers(size, len(entries), *(page for page, _ in entries), *(word for _, word in entries))


def log(size, room, used, base=None, pages=(), words=()):
    """The words of a log, filled up with zeros where none are given."""
    base = [100 + page for page in range(size)] if base is None else list(base)
    fill = lambda given: list(given) + [0] * (room - len(given))
    return [size, room, used] + base + fill(pages) + fill(words)


def cut_images():
    note("images under 8 bytes")
    for digits in ("", "00", "00000003000000"):
        command("image", digits) if digits else command("image")
    note("exactly 8 bytes")
    command("image", numbers(0, 0))
    command("image", numbers(3, 0))


def sized_images():
    note("N: 0, 1, 4096 and past it; M: 0, N and past it")
    command("image", image(0, []))
    command("image", image(1, []))
    command("image", image(1, [(0, 7)]))
    command("image", image(4096, []))
    command("image", image(4096, [(0, 1), (4095, TOP)]))
    command("image", image(4096, [(page, page * 3) for page in range(4096)]))
    command("image", numbers(4097, 0))
    command("image", numbers(TOP, 0))
    command("image", numbers(0, 1))
    command("image", numbers(2, 3))
    command("image", image(2, [(0, 1), (1, 2), (1, 3)]))
    command("image", numbers(4096, 4097))
    command("image", numbers(3, TOP))
    command("image", image(3, [(0, 5), (1, 6), (2, TOP)]))


def long_images():
    note("lengths one off both ways")
    sound = image(3, [(0, 5), (2, 6)])
    command("image", sound)
    command("image", sound[:-2])
    command("image", sound + "00")
    command("image", sound + numbers(0, 0))
    command("image", sound[:-16])
    command("image", numbers(3, 0) + "00")
    command("image", numbers(3, 1) + "00000000 000000")
    note("the same bytes in other words, and in capitals")
    command("image", "0 0000 003", "00000001 0000 0002 0", "000 000a")
    command("image", "00000003 00000001 00000002 DEADbeef")


def numbered_images():
    note("bad page numbers: falling, repeated, not below N; first, in the middle and last")
    for pages in (
        [3, 1, 2],
        [2, 1, 0],
        [0, 2, 1],
        [1, 0, 2],
        [0, 0, 1],
        [0, 1, 1],
        [2, 2, 2],
        [4, 1, 2],
        [0, 4, 2],
        [0, 1, 4],
        [0, 1, 5],
        [TOP, 0, 1],
        [0, TOP, 2],
        [0, 1, TOP],
        [0, 1, 3],
    ):
        command("image", image(4, [(page, 10 + index) for index, page in enumerate(pages)]))
    command("image", image(1, [(1, 7)]))
    command("image", image(4096, [(4095, 1), (4096, 2)]))


def first_causes():
    note("where several causes fit, the first is given")
    command("image", numbers(4097)[:8] + "0000")
    command("image", numbers(4097, 4098))
    command("image", numbers(4097, 1, 9, 9) + "00")
    command("image", numbers(2, 3, 9))
    command("image", numbers(2, 2, 1, 0))
    command("image", numbers(2, 2, 1, 0, 5, 6) + "00")
    command("image", numbers(2, 2, 1, 0, 5, 6))
    command("image", numbers(3, 3, 1, 1, 9, 5, 6, 7))


def look(*pages):
    for page in pages:
        command("get", page)
    command("pages")
    command("words")


def flats():
    note("flat stores")
    command("flat")
    look(0, TOP)
    command("put", 0, 1)
    command("words")
    command("flat", 9)
    look(0, 1)
    for page in (0, 1, TOP):
        command("put", page, 4)
        command("words")
    command("flat", *range(4096))
    for page in (0, 4095, 4096):
        command("get", page)
    command("put", 4095, TOP)
    command("put", 4096, 1)
    command("pages")
    command("flat", *range(4097))
    command("get", 0)
    command("put", 0, 1)
    command("pages")
    command("words")
    command("flat", "007", TOP, "0")
    look(0, 1, 2, 3)


def short_logs():
    note("logs of too few words")
    for words in ([], [0], [0, 1], [0, 1, 0], [1, 1, 1], [0, 0, 0]):
        command("log", *words)
        look(0)
        command("put", 0, 1)


def sized_logs():
    note("N: 0, 1, 4096, 4097; C: 0, 1, 4096, 4097")
    for words in (
        log(0, 1, 0),
        log(0, 1, 1),
        log(1, 1, 0),
        log(1, 4096, 0),
        log(1, 4097, 0),
        log(1, 0, 0),
        log(4096, 1, 0),
        log(4097, 1, 0),
        log(4096, 4096, 4096, pages=range(4096), words=range(7, 4103)),
        log(4097, 4096, 4096, pages=range(4096), words=range(7, 4103)),
        log(4096, 4097, 1, pages=[5], words=[6]),
    ):
        size = words[0]
        command("log", *words)
        for page in sorted({0, max(size, 1) - 1, size, TOP}):
            command("get", page)
            command("put", page, 12)
        command("words")
    command("log", TOP, 1, 0, 1, 0, 0)
    command("log", 1, TOP, 0, 1, 0, 0)


def used_logs():
    note("U: 0, C, past C; entries that name page N - 1, N, a page again; wild entries past U")
    for words in (
        log(3, 2, 0, pages=[9, TOP], words=[1, 2]),
        log(3, 2, 1, pages=[2, TOP], words=[50, 60]),
        log(3, 2, 2, pages=[2, 2], words=[50, 60]),
        log(3, 2, 3, pages=[2, 2], words=[50, 60]),
        log(3, 2, TOP, pages=[2, 2], words=[50, 60]),
        log(3, 2, 1, pages=[3, 0], words=[50, 60]),
        log(3, 2, 2, pages=[0, 3], words=[50, 60]),
        log(3, 2, 2, pages=[TOP, 0], words=[50, 60]),
        log(3, 2, 1, pages=[0, 3], words=[50, 60]),
        log(3, 4, 4, pages=[1, 0, 1, 0], words=[5, 6, 7, 8]),
        log(3, 4, 3, pages=[1, 1, 1, 1], words=[5, 6, 7, 8]),
    ):
        command("log", *words)
        look(0, 1, 2, 3)


def long_logs():
    note("lengths one off both ways")
    sound = log(2, 1, 1, pages=[1], words=[8])
    for words in (sound, sound[:-1], sound + [0], sound[:-2], sound + [0, 0]):
        command("log", *words)
        look(1)


def puts():
    note("puts into an empty and a full log, and past the pages")
    command("log", *log(3, 2, 0, pages=[9, 8], words=[7, 6]))
    for page, word in ((0, 1), (2, TOP), (1, 3), (1, 4), (3, 5), (TOP, 6), (2, 0), (0, 0)):
        command("put", page, word)
        command("words")
        command("pages")
    command("log", *log(1, 1, 1, base=[5], pages=[0], words=[9]))
    command("get", 0)
    for word in (7, 8):
        command("put", 0, word)
        command("words")
    command("log", *log(3, 3, 3, pages=[2, 0, 2], words=[1, 2, 3]))
    for word, page in enumerate((2, 3, TOP, 0, 1, 1), 40):
        command("put", page, word)
        command("words")


def loads():
    note("loads into equal and unequal sizes")
    three = image(3, [(0, 11), (2, 13)])
    stores = (
        ["flat", 1, 2, 3],
        ["log"] + log(3, 2, 0),
        ["log"] + log(3, 2, 2, pages=[1, 1], words=[4, 5]),
        ["log"] + log(3, 1, 1, pages=[0], words=[4]),
        ["log"] + log(3, 2, 3),
        ["flat", 1, 2],
        ["flat"],
    )
    for store in stores:
        command(*store)
        for digits in (three, image(3, []), image(0, []), image(2, [(1, 9)]), image(4, [(3, 9)]), three + "00", "00"):
            command("load", digits)
            command("words")
        command("load")
        command("load", image(3, [(0, 1), (0, 2)]))
        command("pages")
    command("flat", *range(4096))
    command("load", image(4096, [(page, TOP - page) for page in range(0, 4096, 2)]))
    command("words")
    command("flat", *range(4097))
    command("load", image(0, []))
    command("load", image(4096, []))


def kept():
    note("scripts and arithmetics print nothing")
    command("arithmetic", "flags")
    command("script", "A", "04 00 44 51 20")
    command("script", "none")
    command("arithmetic", "counters")


# The actions of steps.
READ, READ_INDEXED, WRITE, WRITE_INDEXED, SET, COMBINE, SKIP = range(7)


def script(*steps):
    """The bytes of steps, each an action, register a, register b and an operand."""
    codes = "".join(f"{action << 4 | a << 2 | b:02x}" for action, a, b, _ in steps)
    return f"{len(steps):02x}" + codes + numbers(*(operand for _, _, _, operand in steps))


A = script((READ, 0, 0, 0), (SET, 1, 0, 5), (COMBINE, 0, 1, 0), (WRITE, 0, 0, 0))
B = script((READ, 0, 0, 1), (READ, 1, 0, 0), (COMBINE, 0, 1, 0), (WRITE, 0, 0, 2))

SMALL_STORES = (
    ["flat", 10, 20, 30],
    ["log"] + log(3, 2, 0, base=[10, 20, 30]),
    ["log"] + log(3, 2, 2, base=[1, 20, 3], pages=[2, 0], words=[30, 10]),
    ["log"] + log(3, 1, 1, base=[10, 20, 3], pages=[2], words=[30]),
)


def tried(digits):
    """Runs these bytes alone under a passing name."""
    command("script", "tried", digits) if digits else command("script", "tried")
    command("alone", "tried")


def alone_pairs():
    note("A, then B, alone, over each kind of store and with both arithmetics")
    command("script", "A", A)
    command("script", "B", B)
    for arithmetic in ("counters", "flags"):
        command("arithmetic", arithmetic)
        for store in SMALL_STORES:
            for names in ("A", "B", "AB", "BA", "ABAB"):
                command(*store)
                for name in names:
                    command("alone", name)
                    command("pages")
                command("words")
    command("arithmetic", "counters")


def alone_operations():
    note("every operation of both arithmetics")
    for arithmetic in ("counters", "flags"):
        command("arithmetic", arithmetic)
        for operation in range(3):
            both = script((READ, 0, 0, 0), (READ, 3, 0, 1), (COMBINE, 0, 3, operation), (WRITE, 0, 0, 2))
            for words in ((12, 10), (10, 12), (TOP, 1), (0, 1), (TOP, TOP), (2**31, 2**31), (7, 0)):
                command("flat", *words, 0)
                tried(both)
                command("pages")
    command("arithmetic", "counters")


def alone_faults():
    note("faults at a read and at a write; nothing is put")
    some = [(SET, 1, 0, 2), (WRITE, 1, 0, 0), (WRITE, 1, 0, 1)]
    for store in SMALL_STORES:
        command(*store)
        for step in (
            (READ, 0, 0, 2),
            (READ, 0, 0, 3),
            (READ, 0, 0, TOP),
            (READ_INDEXED, 0, 1, 0),
            (READ_INDEXED, 0, 1, 1),
            (READ_INDEXED, 0, 1, TOP),
            (READ_INDEXED, 0, 1, TOP - 1),
            (READ_INDEXED, 0, 1, TOP - 2),
            (WRITE, 1, 0, 3),
            (WRITE, 1, 0, TOP),
            (WRITE_INDEXED, 1, 1, 1),
            (WRITE_INDEXED, 1, 1, TOP - 2),
            (WRITE_INDEXED, 1, 1, TOP - 1),
        ):
            tried(script(step))
            tried(script(*some, step))
            tried(script(*some, step, (SET, 0, 0, 9)))
            command("words")
    note("stores of size 0")
    for store in (["flat"], ["log", 1, 1, 2, 7, 0, 8]):
        command(*store)
        for digits in (A, B, script((SET, 0, 0, 6)), script((WRITE, 0, 0, 0)), script((SKIP, 0, 1, 1), (READ, 0, 0, 0))):
            tried(digits)
        command("words")


def alone_lists():
    note("a page stands once on the list, in order of first write, with its latest word, and is read from there")
    writes = (
        [(SET, 0, 0, 7), (WRITE, 0, 0, 2), (SET, 0, 0, 8), (WRITE, 0, 0, 0), (SET, 0, 0, 9), (WRITE, 0, 0, 2)],
        [(SET, 1, 0, 6), (WRITE, 1, 0, 1), (READ, 0, 0, 1), (COMBINE, 0, 1, 0), (WRITE, 0, 0, 1), (READ, 0, 0, 1)],
        [(SET, 2, 0, 1), (WRITE_INDEXED, 2, 2, 1), (READ_INDEXED, 0, 2, 1), (READ, 3, 0, 0), (WRITE_INDEXED, 3, 0, TOP)],
        [(WRITE, 0, 0, 0), (WRITE, 0, 0, 1), (WRITE, 0, 0, 2)],
        [(READ, 0, 0, 0), (WRITE, 0, 0, 0)],
        [(SET, 0, 0, 3)] + [(WRITE, 0, 0, page % 3) for page in range(15)],
    )
    for store in SMALL_STORES:
        for steps in writes:
            command(*store)
            tried(script(*steps))
            command("pages")
            command("words")


def alone_skips():
    note("steps left out: none, one, all that follow; from the first and from a later step")
    command("flat", 10, 20, 30)
    for word in (0, 1):
        for left_out in (1, 2, 3):
            tried(script((SET, 1, 0, word), (SKIP, 0, 1, left_out), (SET, 0, 0, 4), (WRITE, 0, 0, 1), (READ, 2, 0, 3)))
            command("pages")
    tried(script((SKIP, 0, 0, 15), *[(READ, 0, 0, 9)] * 15))
    tried(script((SET, 0, 0, 1), (SKIP, 0, 1, 14), *[(SET, 0, 0, 2)] * 14))
    tried(script((SKIP, 0, 1, 1), (SET, 0, 0, 5), (SKIP, 0, 1, 1), (SET, 0, 0, 6)))


def damaged_scripts():
    note("bytes of no fit size or length")
    command("flat", 10, 20, 30)
    sets = lambda count: script(*[(SET, 0, 0, index) for index in range(count)])
    for digits in ("", "00", "01", "0040", "11", "ff", sets(1), sets(15), sets(16), sets(17), sets(255)):
        tried(digits)
    for digits in (A, sets(1), sets(16)):
        for damaged in (digits[:-2], digits + "00", digits[2:], "03" + digits[2:], "00" + digits[2:], "11" + digits[2:]):
            tried(damaged)
    note("steps that are not defined: the first is told")
    for action in range(16):
        for a, b in ((0, 0), (1, 2), (3, 3), (2, 1)):
            for operand in (0, 1, 2, 3, TOP):
                tried(script((action, a, b, operand), (SET, 0, 0, 1)))
    for first in (1, 4, 15):
        steps = [(SET, 0, 0, index) for index in range(16)]
        steps[first] = (7, 0, 0, 0)
        tried(script(*steps))
        steps[15] = (COMBINE, 0, 0, 3)
        tried(script(*steps))
    for operand in (0, 1, 13, 14, 15, 16, TOP):
        tried(script((SKIP, 0, 1, operand), *[(SET, 1, 0, 1)] * 15))
        tried(script((SET, 0, 0, 1), (SKIP, 0, 1, operand), *[(SET, 1, 0, 1)] * 14))
    command("pages")


def named_again():
    note("a name given again names the later bytes from there on")
    command("flat", 10, 20, 30)
    command("script", "again", A)
    command("alone", "again")
    command("script", "again", "04 00 04 51 20", numbers(1, 0), numbers(0, 2))
    command("alone", "again")
    command("script", "again")
    command("alone", "again")
    command("pages")


# Scripts for runs of the engine.
SIXTEEN = script(*[(SET, 0, 0, index) for index in range(16)])
SEVENTEEN = script(*[(SET, 0, 0, index) for index in range(17)])


def turns(slot, count, other=None):
    for _ in range(count):
        command("turn", slot, slot if other is None else other)


def begin_pair():
    command("flat", 10, 20, 30)
    command("begin", 0, "A")
    command("begin", 1, "B")


def end_pair():
    """Closes what is still open, and shows the pages."""
    for slot in (0, 1):
        command("abort", slot)
    command("pages")
    command("book")


def known_runs():
    note("A and B side by side: a shadow takes over, B commits first, a shadow starts at step 0, B starts over")
    command("script", "A", A)
    command("script", "B", B)
    for allowance in (2, 1):
        command("allow", allowance)
        begin_pair()
        turns(0, 4)
        turns(1, 3)
        command("stand", 1, 0)
        command("entry", 1, 0, 0)
        command("shadows")
        command("commit", 0)
        command("stand", 1, 1)
        turns(1, 5)
        command("commit", 1)
        end_pair()
    command("allow", 2)
    begin_pair()
    turns(0, 4)
    turns(1, 4)
    command("commit", 1)
    command("commit", 0)
    end_pair()
    begin_pair()
    turns(1, 2)
    turns(0, 4)
    command("stand", 1, 0)
    turns(1, 3, 0)
    for index in (0, 1, 2, TOP):
        command("entry", 1, 1, index)
        command("entry", 1, 0, index)
    end_pair()
    note("sixteen sets, a skip, pages 2 and 3, a page past the top")
    for name, digits in (
        ("sixteen", SIXTEEN),
        ("seventeen", SEVENTEEN),
        ("skip", script((SKIP, 0, 1, 1), (SET, 0, 0, 9))),
        ("lone", script((SKIP, 0, 1, 1))),
        ("third", script((READ, 0, 0, 2))),
        ("fourth", script((READ, 0, 0, 3))),
        ("round", script((SET, 1, 0, 1), (READ_INDEXED, 0, 1, TOP))),
    ):
        command("script", name, digits)
        command("begin", 7, name)
        turns(7, 3)
        command("commit", 7)
        command("abort", 7)
    command("pages")


def engine_refusals():
    note("every refusal, and which comes first")
    command("flat", 10, 20, 30)
    command("script", "none")
    command("script", "cut", A[:-2])
    command("script", "odd", script((SET, 0, 0, 1), (7, 0, 0, 0)))
    command("script", "off", script((SET, 0, 0, 4), (WRITE, 0, 0, 3)))
    command("script", "last", script((SET, 0, 0, 4), (WRITE, 0, 0, 0), (WRITE, 0, 0, 2), (WRITE, 0, 0, 1)))
    for slot in (8, TOP):
        command("begin", slot, "A")
        command("begin", slot, "none")
        command("commit", slot)
        command("abort", slot)
        for name in ("turn", "stand"):
            command(name, slot, 0)
            command(name, 0, slot)
            command(name, slot, TOP)
        command("entry", slot, 9, 0)
        command("entry", 0, slot, 0)
    for allowance in (0, 9, TOP, 8, 2):
        command("allow", allowance)
    for name in ("none", "cut", "odd"):
        command("begin", 3, name)
    for slot in (0, 7):
        command("commit", slot)
        command("abort", slot)
        command("turn", slot, slot)
        command("stand", slot, 3)
        command("entry", slot, slot, 0)
    command("begin", 5, "off")
    command("begin", 3, "last")
    command("begin", 5, "A")
    command("begin", 5, "none")
    for allowance in (3, 0):
        command("allow", allowance)
    for other in (3, 4):
        command("turn", 5, other)
        command("stand", 5, other)
        command("entry", 5, other, 0)
    command("commit", 5)
    turns(5, 3)
    command("commit", 5)
    turns(3, 5)
    note("the host takes a smaller store while slots are open")
    for words in ((10, 20), (10,), ()):
        command("flat", *words)
        command("commit", 3)
        command("turn", 3, 3)
    command("log", *log(2, 1, 0))
    command("commit", 3)
    command("flat", 1, 2, 3, 4)
    command("commit", 3)
    command("pages")
    turns(5, 2)
    command("arithmetic", "flags")
    command("commit", 5)
    command("put", 0, 77)
    command("arithmetic", "counters")
    command("book")


def random_script(random, pages):
    steps = []
    count = random.randint(1, 7)
    for index in range(count):
        action = random.choice((READ, READ, READ_INDEXED, WRITE, WRITE, WRITE_INDEXED, SET, COMBINE, SKIP))
        a, b = random.randrange(4), random.randrange(4)
        operand = random.randrange(pages)
        if action in (READ, WRITE, SET):
            b = 0
        if action == COMBINE:
            operand = random.randrange(3)
        if action == SKIP:
            operand = random.randint(1, 3)
            if index + 1 + operand > count:
                action, b, operand = SET, 0, random.randrange(pages)
        steps.append((action, a, b, operand))
    return script(*steps)


def random_runs():
    note("small scripts at random over few pages, with turns at random: many conflicts")
    random = Random(20)
    for allowance in (1, 2, 3, 8):
        for store in (["flat", 0, 1, 2], ["log"] + log(3, 2, 1, base=[1, 0, 2], pages=[1], words=[1])):
            command("allow", allowance)
            command(*store)
            command("arithmetic", random.choice(("counters", "flags")))
            slots = random.choice((3, 5, 8))
            for name in range(slots):
                command("script", f"random{name}", random_script(random, 3))
                command("begin", name, f"random{name}")
            for _ in range(90):
                random_command(random, slots)
            command("shadows")
            for slot in range(slots):
                turns(slot, 3)
                command("commit", slot)
                command("abort", slot)
            command("pages")
            command("book")
    command("arithmetic", "counters")


def random_command(random, slots):
    slot, other = random.randrange(slots), random.randrange(slots)
    kind = random.randrange(20)
    if kind < 10:
        turns(slot, 1)
    elif kind < 13:
        turns(slot, 1, other)
    elif kind < 15:
        command("commit", slot)
    elif kind < 17:
        command("begin", slot, f"random{other}")
    elif kind < 18:
        command("stand", slot, other)
    elif kind < 19:
        command("entry", slot, other, random.randrange(3))
    else:
        command(random.choice(("abort 0", "shadows", "book", "pages")))


def layouts():
    """Every group in its turn; the last leaves a store of moderate size for the summary, and no slot open."""
    cut_images()
    sized_images()
    long_images()
    numbered_images()
    first_causes()
    flats()
    short_logs()
    sized_logs()
    used_logs()
    long_logs()
    loads()
    kept()
    alone_pairs()
    alone_operations()
    alone_faults()
    alone_lists()
    alone_skips()
    damaged_scripts()
    named_again()
    puts()
    engine_refusals()
    random_runs()
    known_runs()


if __name__ == "__main__":
    layouts()
