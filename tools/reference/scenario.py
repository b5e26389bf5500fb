#!/usr/bin/env python3
"""An independent reference: reads a sound scenario and prints the lines with ' -> ' that gorsepick must print.

Usage: scenario.py [FILE]    without FILE it reads standard input

It follows the rules of stores, images, loading, scripts, shadows and the serial book as the subject has them, and shares
no code with the program.
"""
import sys

MOST_PAGES = 4096
WORDS = 2**32
OPERATIONS = {
    "counters": (lambda a, b: (a + b) % WORDS, lambda a, b: (a - b) % WORDS, max),
    "flags": (lambda a, b: a & b, lambda a, b: a | b, lambda a, b: a ^ b),
}


class Fault(Exception):
    """No page has this number; a script's step comes first, where one came to it."""


class Refused(Exception):
    """A number, and the values that tell more."""

    def __init__(self, *numbers):
        super().__init__(*numbers)
        self.numbers = numbers


class FlatStore:
    def __init__(self, words):
        self.words = words

    def pages(self):
        return [] if len(self.words) > MOST_PAGES else list(self.words)

    def put(self, page, word):
        if page >= len(self.pages()):
            raise Fault(page)
        self.words[page] = word


class LogStore:
    """N, C, U, then N base words, C page numbers and C words."""

    def __init__(self, words):
        self.words = words

    def is_sound(self):
        if len(self.words) < 3:
            return False
        size, room, used = self.words[:3]
        if size > MOST_PAGES or not 1 <= room <= MOST_PAGES or used > room:
            return False
        if len(self.words) != 3 + size + 2 * room:
            return False
        return all(page < size for page in self.words[3 + size:3 + size + used])

    def entries(self):
        size, room, used = self.words[:3]
        numbers = self.words[3 + size:3 + size + room]
        words = self.words[3 + size + room:]
        return list(zip(numbers, words))[:used]

    def pages(self):
        if not self.is_sound():
            return []
        pages = self.words[3:3 + self.words[0]]
        for page, word in self.entries():
            pages[page] = word
        return pages

    def put(self, page, word):
        pages = self.pages()
        if page >= len(pages):
            raise Fault(page)
        size, room, used = self.words[:3]
        if used == room:
            self.words[3:3 + size] = pages
            used = 0
        self.words[3 + size + used] = page
        self.words[3 + size + room + used] = word
        self.words[2] = used + 1


def read_image(data):
    """The pages that an image shows."""
    if len(data) < 8:
        raise Refused(12, len(data))
    number = lambda at: int.from_bytes(data[at:at + 4], "big")
    size, named = number(0), number(4)
    if size > MOST_PAGES:
        raise Refused(12, 0)
    if named > size:
        raise Refused(12, 4)
    if len(data) != 8 + 8 * named:
        raise Refused(12, len(data))
    pages = [0] * size
    last = -1
    for index in range(named):
        page = number(8 + 4 * index)
        if not last < page < size:
            raise Refused(12, 8 + 4 * index)
        pages[page] = number(8 + 4 * named + 4 * index)
        last = page
    return pages


def load(store, data):
    pages = read_image(data)
    if len(pages) != len(store.pages()):
        raise Refused(13, len(pages), len(store.pages()))
    for page, word in enumerate(pages):
        store.put(page, word)


def is_defined(action, b, operand, index, count):
    """Whether step `index` of `count` is one that scripts may have."""
    if action in (0, 2, 4):
        return b == 0
    if action == 5:
        return operand <= 2
    if action == 6:
        return 1 <= operand <= 15 and index + 1 + operand <= count
    return action < 6


def decode(data):
    """The steps of a script: action, register a, register b and operand."""
    if not data or not 1 <= data[0] <= 16 or len(data) != 1 + 5 * data[0]:
        raise Refused(5, len(data))
    count = data[0]
    operands = data[1 + count:]
    steps = []
    for index, code in enumerate(data[1:1 + count]):
        action, a, b = code >> 4, code >> 2 & 3, code & 3
        operand = int.from_bytes(operands[4 * index:4 * index + 4], "big")
        if not is_defined(action, b, operand, index, count):
            raise Refused(6, index)
        steps.append((action, a, b, operand))
    return steps


def run_alone(steps, store, operations):
    """Runs steps over the store's pages, then puts what they wrote; register 0 and the number of pages put."""
    pages = store.pages()
    registers = [0, 0, 0, 0]
    written = {}
    at = 0
    while at < len(steps):
        action, a, b, operand = steps[at]
        page = (operand + registers[b]) % WORDS if action in (1, 3) else operand
        left_out = 0
        if action in (0, 1):
            if page not in written and page >= len(pages):
                raise Fault(at, page)
            registers[a] = written[page] if page in written else pages[page]
        elif action in (2, 3):
            if page >= len(pages):
                raise Fault(at, page)
            written[page] = registers[a]
        elif action == 4:
            registers[a] = operand
        elif action == 5:
            registers[a] = operations[operand](registers[a], registers[b])
        elif registers[a] == registers[b]:
            left_out = operand
        at += 1 + left_out
    for page, word in written.items():
        store.put(page, word)
    return registers[0], len(written)


class Shadow:
    """How far a script has come: step, registers, recorded reads (step and page) and own list (page to word)."""

    def __init__(self):
        self.step = 0
        self.registers = [0, 0, 0, 0]
        self.reads = []
        self.own = {}

    def copy(self):
        other = Shadow()
        other.step = self.step
        other.registers = list(self.registers)
        other.reads = list(self.reads)
        other.own = dict(self.own)
        return other

    def has_read(self, pages):
        return any(page in pages for _, page in self.reads)

    def page_of(self, step):
        action, _, b, operand = step
        return (operand + self.registers[b]) % WORDS if action in (1, 3) else operand

    def store_read(self, steps):
        """The page of the store read that the next step is, or None."""
        if self.step == len(steps) or steps[self.step][0] not in (0, 1):
            return None
        page = self.page_of(steps[self.step])
        return None if page in self.own else page

    def written_next(self, steps):
        if steps[self.step][0] not in (2, 3):
            return None
        return self.page_of(steps[self.step])

    def take_step(self, slot, steps, pages, operations):
        """Takes the next step; one for a page that is not there changes nothing."""
        action, a, b, operand = steps[self.step]
        page = self.page_of(steps[self.step])
        left_out = 0
        if action in (0, 1):
            if page in self.own:
                self.registers[a] = self.own[page]
            else:
                if page >= len(pages):
                    raise Refused(9, slot, self.step, page)
                self.reads.append((self.step, page))
                self.registers[a] = pages[page]
        elif action in (2, 3):
            if page >= len(pages):
                raise Refused(9, slot, self.step, page)
            self.own[page] = self.registers[a]
        elif action == 4:
            self.registers[a] = operand
        elif action == 5:
            self.registers[a] = operations[operand](self.registers[a], self.registers[b])
        elif self.registers[a] == self.registers[b]:
            left_out = operand
        self.step += 1 + left_out


class Slot:
    """An open slot t: its steps, and its shadows by the slot that they are for; the leading one is under t itself."""

    def __init__(self, number, steps):
        self.number = number
        self.steps = steps
        self.shadows = {number: Shadow()}

    def lead(self):
        return self.shadows[self.number]

    def furthest(self, kept):
        """A copy of the furthest of the shadows kept, or a start."""
        order = [self.number] + sorted(u for u in self.shadows if u != self.number)
        found = None
        for u in order:
            shadow = self.shadows.get(u)
            if shadow is not None and kept(shadow) and (found is None or shadow.step > found.step):
                found = shadow
        return Shadow() if found is None else found.copy()


class Engine:
    def __init__(self):
        self.allowance = 2
        self.slots = {}

    def others(self, t):
        return [self.slots[u] for u in sorted(self.slots) if u != t]

    def opened(self, *numbers):
        for number in numbers:
            if number > 7:
                raise Refused(1, number)
        if numbers[0] not in self.slots:
            raise Refused(7, numbers[0])
        return self.slots[numbers[0]]

    def chosen(self, t, u):
        slot = self.opened(t, u)
        if u not in slot.shadows:
            raise Refused(8, u)
        return slot, slot.shadows[u]

    def account(self, slot, u):
        if u not in slot.shadows and len(slot.shadows) >= self.allowance:
            return
        written = self.slots[u].lead().own
        slot.shadows[u] = slot.furthest(lambda shadow: not shadow.has_read(written))

    def standing(self, slot, u):
        shadow = slot.shadows[u]
        if u == slot.number:
            return "ended" if shadow.step == len(slot.steps) else "ready"
        if shadow.step >= slot.lead().step:
            return "waiting"
        return "waiting" if shadow.store_read(slot.steps) in self.slots[u].lead().own else "ready"

    def allow(self, k):
        if not 1 <= k <= 8:
            raise Refused(2, k)
        if self.slots:
            raise Refused(3, min(self.slots))
        self.allowance = k

    def begin(self, t, data):
        if t > 7:
            raise Refused(1, t)
        if t in self.slots:
            raise Refused(4, t)
        self.slots[t] = Slot(t, decode(data))

    def turn(self, t, u, pages, operations):
        slot, shadow = self.chosen(t, u)
        standing = self.standing(slot, u)
        if standing != "ready":
            return standing
        if t != u:
            shadow.take_step(t, slot.steps, pages, operations)
            return "moved"
        read = shadow.store_read(slot.steps)
        written = shadow.written_next(slot.steps)
        shadow.copy().take_step(t, slot.steps, pages, operations)
        if read is not None:
            for other in self.others(t):
                if other.number not in slot.shadows and read in other.lead().own:
                    self.account(slot, other.number)
        shadow.take_step(t, slot.steps, pages, operations)
        if written is not None:
            for other in self.others(t):
                if other.lead().has_read({written}):
                    if t not in other.shadows or other.shadows[t].has_read({written}):
                        self.account(other, t)
        return "moved"

    def commit(self, t, store):
        lead = self.opened(t).lead()
        if lead.step < len(self.slots[t].steps):
            raise Refused(10, lead.step)
        for page in lead.own:
            if page >= len(store.pages()):
                raise Refused(11, t, page)
        for page, word in lead.own.items():
            store.put(page, word)
        del self.slots[t]
        for slot in self.slots.values():
            slot.shadows = {u: shadow for u, shadow in slot.shadows.items() if not shadow.has_read(lead.own)}
            if slot.number not in slot.shadows:
                slot.shadows[slot.number] = slot.furthest(lambda shadow: True)
            slot.shadows.pop(t, None)
        return lead.registers[0], len(lead.own)

    def abort(self, t):
        self.opened(t)
        del self.slots[t]
        for slot in self.slots.values():
            slot.shadows.pop(t, None)


class Book:
    """Pages, and the scripts of the slots begun since the book was."""

    def __init__(self, pages):
        self.pages = pages
        self.scripts = {}

    def commit(self, t, answer, store, operations):
        if t not in self.scripts:
            self.pages = store.pages()
            return
        flat = FlatStore(list(self.pages))
        alone = run_alone(decode(self.scripts.pop(t)), flat, operations)
        self.pages = flat.words
        assert alone == answer, f"slot {t}: {answer}, and alone {alone}"
        assert self.pages == store.pages(), f"slot {t}: the pages are not the book's"


def number_of(word):
    """A scenario's number; one that is out of range would not be a sound scenario."""
    if not (word.isascii() and word.isdigit() and int(word) < 2**32):
        raise ValueError(f"no number: {word}")
    return int(word)


def listed(heading, numbers):
    return " ".join([heading] + [str(number) for number in numbers])


class Host:
    def __init__(self):
        self.store = None
        self.operations = OPERATIONS["counters"]
        self.scripts = {}
        self.engine = Engine()
        self.book = Book([])

    def answer(self, name, words):
        first = self.store is None
        answer = self.carry_out(name, words)
        if first and self.store is not None:
            self.book.pages = self.store.pages()
        elif name in ("flat", "log", "arithmetic", "put", "load", "alone") and self.store is not None:
            self.book = Book(self.store.pages())
        return answer

    def answer_engine(self, name, words):
        """One of the five calls or a question; None where the name is neither."""
        engine = self.engine
        if name == "begin":
            t, data = number_of(words[0]), self.scripts[words[1]]
            engine.begin(t, data)
            self.book.scripts[t] = data
            return "begun"
        if name not in ("allow", "turn", "commit", "abort", "stand", "entry", "shadows", "book"):
            return None
        numbers = [number_of(word) for word in words]
        if name == "allow":
            engine.allow(*numbers)
            return "allowed"
        if name == "turn":
            return engine.turn(*numbers, self.store.pages(), self.operations)
        if name == "commit":
            answer = engine.commit(*numbers, self.store)
            self.book.commit(*numbers, answer, self.store, self.operations)
            return listed("committed", answer)
        if name == "abort":
            engine.abort(*numbers)
            self.book.scripts.pop(numbers[0], None)
            return "aborted"
        if name == "stand":
            slot, shadow = engine.chosen(*numbers)
            return f"step {shadow.step} {engine.standing(slot, numbers[1])}"
        if name == "entry":
            reads = engine.chosen(*numbers[:2])[1].reads
            if numbers[2] >= len(reads):
                return "absent"
            step, page = reads[numbers[2]]
            return f"step {step} page {page}"
        if name == "shadows":
            return f"{sum(len(slot.shadows) for slot in engine.slots.values())} shadows"
        return listed("pages", self.book.pages)

    def carry_out(self, name, words):
        asked = self.answer_engine(name, words)
        if asked is not None:
            return asked
        if name in ("flat", "log"):
            kind = FlatStore if name == "flat" else LogStore
            self.store = kind([number_of(word) for word in words])
            return f"size {len(self.store.pages())}"
        if name == "arithmetic":
            self.operations = OPERATIONS[words[0]]
            return None
        if name == "script":
            self.scripts[words[0]] = bytes.fromhex("".join(words[1:]))
            return None
        if name == "alone":
            return listed("answered", run_alone(decode(self.scripts[words[0]]), self.store, self.operations))
        if name == "get":
            page = number_of(words[0])
            pages = self.store.pages()
            if page >= len(pages):
                raise Fault(page)
            return f"word {pages[page]}"
        if name == "put":
            self.store.put(number_of(words[0]), number_of(words[1]))
            return "put"
        if name == "pages":
            return listed("pages", self.store.pages())
        if name == "words":
            return listed("words", self.store.words)
        if name == "image":
            return listed("pages", read_image(bytes.fromhex("".join(words))))
        if name == "load":
            load(self.store, bytes.fromhex("".join(words)))
            return "loaded"
        raise ValueError(f"no such command: {name}")


def carry_out(text):
    host = Host()
    for line in text.splitlines():
        words = line.split("#")[0].split()
        if not words:
            continue
        try:
            answer = host.answer(words[0], words[1:])
        except Fault as fault:
            answer = listed("fault", fault.args)
        except Refused as refusal:
            answer = listed("refused", refusal.numbers)
        if answer is not None:
            yield " ".join(words) + " -> " + answer


def main():
    source = open(sys.argv[1]) if len(sys.argv) > 1 else sys.stdin
    for line in carry_out(source.read()):
        print(line)


if __name__ == "__main__":
    main()
