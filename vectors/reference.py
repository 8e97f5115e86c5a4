"""A reading of document 01 that owes nothing to the proved reader: what is answered, and what the thirteen tables hold.

It is written to be read beside the document, not to be fast. `read` gives the words that a replay prints.
"""

WIDTHS = [1, 8, 2, 6, 9, 11, 3, 2, 4, 3, 5, 7, 1]
NAMES, CONSTANTS, TOKENS, ASSIGNS, CHAINS, STEPS, SWITCHES, CASES, RANGES, CUSTOMS, INPUTS, FUNCTIONS, PARAMETERS = range(13)
LIMIT = 1_048_576


class Refused(Exception):
    def __init__(self, number, first=0, second=0):
        self.words = [number, first, second]


class Reader:
    def __init__(self, data, mask, lengths):
        self.data, self.mask, self.at = data, mask, 0
        self.places = [length // width for length, width in zip(lengths, WIDTHS)]
        self.rows = [[] for _ in WIDTHS]

    # ── numbers, bytes, strings ──

    def take(self, n):
        if n > len(self.data) - self.at:
            raise Refused(2)
        self.at += n
        return self.data[self.at - n:self.at]

    def byte(self):
        return self.take(1)[0]

    def fixed(self, n):
        return int.from_bytes(self.take(n), 'little')

    def number(self, bits=64):
        value = 0
        for group in range(10):
            byte = self.byte()
            value |= (byte & 0x7F) << 7 * group
            if byte < 0x80:
                if value >= 1 << bits:
                    raise Refused(6)
                return value
        raise Refused(6)

    def index(self):
        return self.number(32)

    def small(self):
        return self.number(16)

    def signed(self):
        u = self.number()
        return (u // 2 if u % 2 == 0 else -(u + 1) // 2) % (1 << 64)

    def run(self):
        n = self.number()
        start = self.at
        self.take(n)
        return [start, n]

    def text(self, span):
        return self.data[span[0]:span[0] + span[1]]

    def string(self):
        span = self.run()
        if not is_utf8(self.text(span)):
            raise Refused(7)
        return span

    # ── tables ──

    def room(self, table):
        if len(self.rows[table]) >= self.places[table]:
            raise Refused(14, table + 1)

    def list(self, table, record):
        n = self.number()
        for _ in range(n):
            self.room(table)
            self.rows[table].append(record())
        return n

    def position(self):
        line, column = self.small(), self.small()
        return [line, column] if line else [0, 0]

    def chunk(self):
        return [self.index(), self.index(), self.small()]

    # ── the sections ──

    def header(self):
        if self.take(4) != b'RGRN':
            raise Refused(3)
        version = self.fixed(2)
        if version != 11:
            raise Refused(4, version, 11)
        widths = [self.byte(), self.byte()]
        caps = self.fixed(4)
        if widths != [8, 8]:
            raise Refused(5, *widths)
        return [caps, self.fixed(8), self.fixed(8)]

    def names(self):
        n = self.number()
        if n > len(self.data) - self.at:
            raise Refused(2)
        for _ in range(n):
            self.room(NAMES)
            self.rows[NAMES].append([self.index()])
        blob = self.run()
        ends = [0] + [row[0] for row in self.rows[NAMES]]
        if ends != sorted(ends):
            raise Refused(11, 1)
        if ends[-1] != blob[1]:
            raise Refused(11, 2)
        if not is_utf8(self.text(blob)):
            raise Refused(11, 3)
        return blob

    def items(self, depth, keyed=False):
        n = self.number()
        for _ in range(n):
            self.constant(depth, self.string() if keyed else [0, 0])
        return n

    def constant(self, depth, key=(0, 0)):
        if depth > 64:
            raise Refused(9)
        self.room(CONSTANTS)
        here = len(self.rows[CONSTANTS])
        self.rows[CONSTANTS].append(None)
        a = b = count = 0
        span = [0, 0]
        tag = self.byte()
        if tag == 3:
            a = self.signed()
        elif tag == 4:
            a = self.fixed(8)
        elif tag == 5:
            a = self.index()
            if 0xD800 <= a < 0xE000 or a >= 0x110000:
                raise Refused(6)
        elif tag == 6:
            span = self.string()
        elif tag in (7, 8):
            count = self.items(depth + 1, tag == 8)
        elif tag == 9:
            span = self.run()
        elif tag in (0x0A, 0x0B):
            a, b = self.signed(), self.signed()
        elif tag == 0x0D:
            span = self.string()
            count = self.items(depth + 1)
            a = self.byte()
            if a not in (0x81, 0x82):
                raise Refused(8, 1, a)
            b = self.number() if a == 0x82 else 0
        elif tag > 2:
            raise Refused(8, 1, tag)
        self.rows[CONSTANTS][here] = [tag, a, b, *span, count, *key]

    def constants(self):
        n = self.number()
        for _ in range(n):
            self.constant(0)
        return n

    def assign(self):
        return [*self.string(), self.index(), *self.string(), self.index()]

    def root(self):
        tag = self.byte()
        if tag == 1:
            return [1, self.small(), self.index(), 0, 0]
        if tag == 2:
            return [2, 0, 0, 0, 0]
        if tag == 3:
            return [3, 0, self.index(), *self.position()]
        if tag == 4:
            return [4, 0, 0, *self.position()]
        raise Refused(8, 2, tag)

    def step(self):
        tag, flags = self.byte(), self.byte()
        if flags & ~self.mask:
            raise Refused(8, 3, flags)
        if tag == 1:
            operand = self.small()
            return [1, flags, operand, 0, 0, 0, 0, *self.position(), *self.position()]
        if tag == 2:
            names = [self.index(), self.index(), self.index()]
            return [2, flags, 0, *names, 0, *self.position(), 0, 0]
        if tag == 3:
            name, count, operand = self.index(), self.byte(), self.small()
            return [3, flags, operand, name, 0, 0, count, *self.position(), 0, 0]
        raise Refused(8, 4, tag)

    def tail(self):
        tag = self.byte()
        if tag in (1, 2):
            return [tag, 0]
        if tag == 3:
            return [3, self.index()]
        raise Refused(8, 5, tag)

    def chain(self):
        root = self.root()
        operands = self.small()
        steps = self.list(STEPS, self.step)
        return [*root, operands, steps, *self.tail()]

    def case(self):
        blocks = self.index()
        at = self.at
        constant = self.index()
        if constant >= self.tops:
            raise Refused(10, at, constant)
        return [blocks, constant]

    def range(self):
        return [self.signed(), self.signed(), int(self.byte() != 0), self.index()]

    def switch(self):
        return [self.list(CASES, self.case), self.list(RANGES, self.range), self.index()]

    def input(self):
        chunk, literal = self.chunk(), self.index()
        return chunk + ([0, 0] if literal == 0xFFFFFFFF else [1, literal])

    def custom(self):
        return [self.index(), self.index(), self.list(INPUTS, self.input)]

    def function(self):
        name = self.index()
        access = self.number()
        if access > 1:
            raise Refused(2)
        this = self.number()
        if this > 1 << 32:
            raise Refused(2)
        return [name, access, this, self.list(PARAMETERS, lambda: [self.index()]), *self.chunk()]

    def positions(self):
        span = self.run()
        if span[1]:
            fault = check_positions(self.text(span))
            if fault:
                raise Refused(12, *fault)
        return span

    def artifact(self):
        if len(self.data) > LIMIT:
            raise Refused(1, len(self.data))
        header = self.header()
        source = self.string()
        blob = self.names()
        self.tops = self.constants()
        self.list(TOKENS, self.string)
        self.list(ASSIGNS, self.assign)
        self.list(CHAINS, self.chain)
        self.list(SWITCHES, self.switch)
        self.list(CUSTOMS, self.custom)
        main = self.chunk()
        self.list(FUNCTIONS, self.function)
        code = self.run()
        positions = self.positions()
        if self.at != len(self.data):
            raise Refused(13, len(self.data) - self.at)
        used = [len(rows) for rows in self.rows]
        return [*header, *source, *blob, *code, *positions, *main, self.tops, *used]


def is_utf8(data):
    try:
        bytes(data).decode('utf-8')
        return True
    except UnicodeDecodeError:
        return False


def check_positions(table):
    """The reason and its value, or nothing where the table is sound."""
    reader = Reader(table, 0, [0] * 13)
    try:
        count, address = reader.index(), 0
        for entry in range(count):
            step = reader.index()
            if step == 0 and entry > 0:
                return 3, address
            address += step
            if address >= 1 << 32:
                return 2, 0
            reader.index(), reader.index()
    except Refused as refused:
        return (1, 0) if refused.words[0] == 2 else (2, 0)
    left = len(table) - reader.at
    return (4, left) if left else None


def read(data, mask, lengths):
    """The first three words, those behind them on an acceptance, and the words of the thirteen tables."""
    reader = Reader(data, mask, lengths)
    try:
        answer = [0, 0, 0] + reader.artifact()
    except Refused as refused:
        return refused.words, [[0] * length for length in lengths]
    tables = []
    for rows, length in zip(reader.rows, lengths):
        words = [word for row in rows for word in row]
        tables.append(words + [0] * (length - len(words)))
    return answer, tables
