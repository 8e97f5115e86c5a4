"""A reading of document 01's "Well-formed tables, and writing" that owes nothing to the proved writer: what is answered, and which
bytes are written.

It is written to be read beside the document, not to be fast. What is to be written is a `Model`: the words of a heading, laid out as
a read's answer, thirteen tables of words, and the text that spans cut.
"""
from reference import (ASSIGNS, CASES, CHAINS, CONSTANTS, CUSTOMS, FUNCTIONS, INPUTS, LIMIT, NAMES, PARAMETERS, RANGES, STEPS, SWITCHES, TOKENS,
                       WIDTHS, check_positions, is_utf8)

BAD_MODEL, NO_ROOM = 15, 16
UNIT, NUMBER, FLOAT, CHAR, STRING, ARRAY, MAP, BLOB, RANGE, INCLUSIVE, POINTER = 0, 3, 4, 5, 6, 7, 8, 9, 10, 11, 13
LISTS = (ARRAY, MAP, POINTER)


class Model:
    def __init__(self, heading, tables, text):
        self.heading, self.tables, self.text = list(heading), [list(table) for table in tables], bytearray(text)
        self.caps, self.id_low, self.id_high = self.heading[3:6]
        self.source, self.blob, self.code, self.positions = [self.heading[k:k + 2] for k in (6, 8, 10, 12)]
        self.main, self.tops, self.used = self.heading[14:17], self.heading[17], self.heading[18:31]

    def rows(self, table):
        """The rows that are used; those that are lent where fewer are."""
        width = WIDTHS[table]
        whole = len(self.tables[table]) // width
        return [self.tables[table][width * k:width * (k + 1)] for k in range(min(self.used[table], whole))]

    def part(self, span):
        start, size = span
        return bytes(self.text[start:start + size])


def items(row):
    """A list, a map and a pointer own items; no other tag looks at the word, and one that is not known owns none."""
    return row[5] if row[0] in LISTS else 0


def placed(model):
    """Each constant, its depth, and whether it is an entry of a map. On the stack: what the lists that are open still await."""
    awaited = [[model.tops, False]]
    for row in model.rows(CONSTANTS):
        while awaited[-1][0] == 0:
            awaited.pop()
        awaited[-1][0] -= 1
        yield row, len(awaited) - 1, awaited[-1][1]
        awaited.append([items(row), row[0] == MAP])


# ── the rules, each by its number: whether it holds ──

def counts(model):
    """1: counts fit and shares use their tables exactly."""
    if any(used > len(table) // width for used, table, width in zip(model.used, model.tables, WIDTHS)):
        return False
    awaited = model.tops
    for row in model.rows(CONSTANTS):
        if awaited == 0:
            return False
        awaited += items(row) - 1
    shares = [(CHAINS, 6, STEPS), (SWITCHES, 0, CASES), (SWITCHES, 1, RANGES), (CUSTOMS, 2, INPUTS), (FUNCTIONS, 3, PARAMETERS)]
    exact = [sum(row[word] for row in model.rows(table)) == model.used[of] for table, word, of in shares]
    return awaited == 0 and all(exact)


def texts(model, tags):
    """The spans of constants with one of these tags, of keys, and of operators."""
    for row, _, entry in placed(model):
        if row[0] in tags:
            yield row[3:5]
        if entry:
            yield row[6:8]
    yield from model.rows(TOKENS)
    for row in model.rows(ASSIGNS):
        yield from (row[0:2], row[3:5])


def spans(model):
    """2: spans lie in the lent text."""
    outside = [model.source, model.blob, model.code, model.positions]
    return all(start + size <= len(model.text) for start, size in [*outside, *texts(model, (STRING, BLOB, POINTER))])


def strings(model):
    """3: strings are UTF-8. The names are rule 4's."""
    return all(is_utf8(model.part(span)) for span in [model.source, *texts(model, (STRING, POINTER))])


def names(model):
    """4: the names rule."""
    ends = [0] + [end for end, in model.rows(NAMES)]
    return ends == sorted(ends) and ends[-1] == model.blob[1] and is_utf8(model.part(model.blob))


def tags(model, mask):
    """5: tags and access known, flags within the caller's mask."""
    known = [row[0] <= INCLUSIVE or row[0] == POINTER and row[1] in (0x81, 0x82) for row in model.rows(CONSTANTS)]
    known += [row[0] in (1, 2, 3, 4) and row[7] in (1, 2, 3) for row in model.rows(CHAINS)]
    known += [row[0] in (1, 2, 3) and row[1] & ~mask == 0 for row in model.rows(STEPS)]
    return all(known) and all(row[1] in (0, 1) for row in model.rows(FUNCTIONS))


def depth(model):
    """6: depth at most 64."""
    return all(depth <= 64 for _, depth, _ in placed(model))


def chars(model):
    """7: chars are scalars."""
    return all(row[1] < 0xD800 or 0xE000 <= row[1] < 0x110000 for row in model.rows(CONSTANTS) if row[0] == CHAR)


def cases(model):
    """8: cases name top constants."""
    return all(constant < model.tops for _, constant in model.rows(CASES))


def is_position(line, column):
    return line < 1 << 16 and column < 1 << 16 and (line > 0 or column == 0)


def is_chunk(entry, end, slots):
    return entry < 1 << 32 and end < 1 << 32 and slots < 1 << 16


def is_chain(row):
    tag, slot, name, line, column, operands, _, tail, operator = row
    root = {1: slot < 1 << 16 and name < 1 << 32, 2: True, 3: name < 1 << 32 and is_position(line, column), 4: is_position(line, column)}
    return root[tag] and operands < 1 << 16 and (tail != 3 or operator < 1 << 32)


def is_step(row):
    tag, _, operand, name, getter, setter, count, line, column, bracket_line, bracket_column = row
    own = {1: operand < 1 << 16 and is_position(bracket_line, bracket_column),
           2: max(name, getter, setter) < 1 << 32,
           3: name < 1 << 32 and count < 1 << 8 and operand < 1 << 16}
    return own[tag] and is_position(line, column)


def is_input(row):
    return is_chunk(*row[:3]) and row[3] in (0, 1) and (row[3] == 0 or row[4] < 0xFFFFFFFF)


def is_function(row):
    return row[0] < 1 << 32 and row[2] <= 1 << 32 and is_chunk(*row[4:])


def numbers(model):
    """9: line 0 has column 0, yes or no is 0 or 1, a present literal is below FFFFFFFF, every number fits its kind."""
    index = [word for row in model.rows(NAMES) + model.rows(PARAMETERS) + model.rows(CASES) for word in row]
    index += [row[k] for row in model.rows(ASSIGNS) for k in (2, 5)] + [row[2] for row in model.rows(SWITCHES)]
    index += [row[k] for row in model.rows(CUSTOMS) for k in (0, 1)] + [row[3] for row in model.rows(RANGES)]
    fit = [model.caps < 1 << 32, is_chunk(*model.main), all(word < 1 << 32 for word in index)]
    fit += [row[2] in (0, 1) for row in model.rows(RANGES)]
    for table, sound in [(CHAINS, is_chain), (STEPS, is_step), (INPUTS, is_input), (FUNCTIONS, is_function)]:
        fit += map(sound, model.rows(table))
    return all(fit)


def table(model):
    """10: a position table is empty or checks."""
    return model.positions[1] == 0 or check_positions(model.part(model.positions)) is None


def broken(model, mask):
    """The lowest broken one of the ten rules that do not ask what is written; 0 where all hold."""
    rules = [counts, spans, strings, names, lambda model: tags(model, mask), depth, chars, cases, numbers, table]
    return next((k for k, rule in enumerate(rules, 1) if not rule(model)), 0)


# ── the bytes ──

def num(n):
    """Seven bits a byte, low group first, and no more bytes than needed."""
    out = bytearray()
    while n > 0x7F:
        out.append(0x80 | n & 0x7F)
        n >>= 7
    return bytes(out) + bytes([n])


def sig(word):
    """A signed number, of which the word has the 64 bits."""
    z = word - (1 << 64) if word >> 63 else word
    return num(2 * z if z >= 0 else -2 * z - 1)


def run(data):
    return num(len(data)) + data


class Pieces:
    """What is written, piece by piece in file order."""

    def __init__(self, model, strip):
        self.model, self.strip = model, strip
        self.next = {table: iter(model.rows(table)) for table in range(13)}

    def take(self, table, n):
        """The next rows of a table that others have their shares of."""
        return [next(self.next[table]) for _ in range(n)]

    def position(self, line, column):
        return bytes(2) if self.strip else num(line) + num(column)

    def constants(self, n, keyed=False):
        for row in (next(self.next[CONSTANTS]) for _ in range(n)):
            yield run(self.model.part(row[6:8])) if keyed else b''
            yield from self.constant(row)

    def constant(self, row):
        tag, a, b, start, size, count = row[:6]
        yield bytes([tag])
        if tag == NUMBER:
            yield sig(a)
        elif tag == FLOAT:
            yield a.to_bytes(8, 'little')
        elif tag == CHAR:
            yield num(a)
        elif tag in (RANGE, INCLUSIVE):
            yield sig(a) + sig(b)
        elif tag in (STRING, BLOB, POINTER):
            yield run(self.model.part([start, size]))
        if tag in LISTS:
            yield num(count)
            yield from self.constants(count, tag == MAP)
        if tag == POINTER:
            yield b'\x81' if a == 0x81 else b'\x82' + num(b)

    def assign(self, row):
        return run(self.model.part(row[0:2])) + num(row[2]) + run(self.model.part(row[3:5])) + num(row[5])

    def chain(self, row):
        tag, slot, name, line, column, operands, steps, tail, operator = row
        root = {1: num(slot) + num(name), 2: b'', 3: num(name) + self.position(line, column), 4: self.position(line, column)}[tag]
        yield bytes([tag]) + root + num(operands) + num(steps)
        yield from map(self.step, self.take(STEPS, steps))
        yield bytes([tail]) + (num(operator) if tail == 3 else b'')

    def step(self, row):
        tag, flags, operand, name, getter, setter, count, line, column, bracket_line, bracket_column = row
        at = self.position(line, column)
        own = {1: lambda: num(operand) + at + self.position(bracket_line, bracket_column),
               2: lambda: num(name) + num(getter) + num(setter) + at,
               3: lambda: num(name) + bytes([count]) + num(operand) + at}[tag]()
        return bytes([tag, flags]) + own

    def switch(self, row):
        yield num(row[0]) + b''.join(num(blocks) + num(constant) for blocks, constant in self.take(CASES, row[0]))
        yield num(row[1])
        yield from (sig(low) + sig(high) + bytes([inclusive]) + num(target) for low, high, inclusive, target in self.take(RANGES, row[1]))
        yield num(row[2])

    def custom(self, row):
        yield b''.join(map(num, row))
        for entry, end, slots, present, literal in self.take(INPUTS, row[2]):
            yield num(entry) + num(end) + num(slots) + num(literal if present else 0xFFFFFFFF)

    def function(self, row):
        yield b''.join(map(num, row[:4]))
        yield b''.join(num(name) for name, in self.take(PARAMETERS, row[3])) + b''.join(map(num, row[4:]))

    def records(self, table, put):
        yield num(self.model.used[table])
        for row in self.next[table]:
            yield from put(row)

    def all(self):
        model = self.model
        yield b'RGRN' + (11).to_bytes(2, 'little') + bytes([8, 8]) + model.caps.to_bytes(4, 'little')
        yield model.id_low.to_bytes(8, 'little') + model.id_high.to_bytes(8, 'little') + run(model.part(model.source))
        yield from self.records(NAMES, lambda row: [num(row[0])])
        yield run(model.part(model.blob)) + num(model.tops)
        yield from self.constants(model.tops)
        yield from self.records(TOKENS, lambda row: [run(model.part(row))])
        yield from self.records(ASSIGNS, lambda row: [self.assign(row)])
        yield from self.records(CHAINS, self.chain)
        yield from self.records(SWITCHES, self.switch)
        yield from self.records(CUSTOMS, self.custom)
        yield b''.join(map(num, model.main))
        yield from self.records(FUNCTIONS, self.function)
        yield run(model.part(model.code)) + (b'\x00' if self.strip else run(model.part(model.positions)))


def written(model, strip):
    """The bytes; or nothing where they are more than may be written, which is rule 11."""
    out = bytearray()
    for piece in Pieces(model, strip).all():
        out += piece
        if len(out) > LIMIT:
            return None
    return bytes(out)


def write(model, mask, strip, room):
    """The number and two values, and the bytes that stand in front of the output where it is written to."""
    rule = broken(model, mask)
    if rule:
        return [BAD_MODEL, rule, 0], b''
    out = written(model, strip)
    if out is None:
        return [BAD_MODEL, 11, 0], b''
    if len(out) > room:
        return [NO_ROOM, len(out), 0], b''
    return [0, len(out), 0], out
