"""Document 01 in Python: what is read, written or refused. It stands on the document alone, and on no code of ours."""
import struct
import zlib

U32 = 2**32 - 1
U64 = 2**64 - 1
PREFIX = bytes([0x5F, 0x5F])


class Refused(Exception):
    def __init__(self, number, item=0):
        self.number, self.item = number, item


# ---- numbers and words ---------------------------------------------------------------------------------------------------------------


def spell(n):
    """The shortest form."""
    groups = []
    while True:
        groups.append(n % 128)
        n //= 128
        if n == 0:
            break
    return bytes(g + 128 for g in groups[:-1]) + bytes(groups[-1:])


def read_number(b, at):
    """Value and next place, or the word for why there is none."""
    value = 0
    for k in range(10):
        if at + k >= len(b):
            return "eof"
        x = b[at + k]
        if k == 9 and x > 1:
            return "overflow"
        value += (x % 128) * 128**k
        if x < 128:
            return value, at + k + 1
    raise AssertionError


def crc(b):
    return zlib.crc32(b) & U32


def little(w):
    return struct.pack("<I", w)


# ---- items and bodies ----------------------------------------------------------------------------------------------------------------


class Reader:
    """Numbers and bytes of a body, one after another; `plain` is lost at the first padded number."""

    def __init__(self, b):
        self.b, self.at, self.plain = b, 0, True

    def number(self):
        got = read_number(self.b, self.at)
        if isinstance(got, str):
            raise Refused(7)
        value, after = got
        if self.b[self.at:after] != spell(value):
            self.plain = False
        self.at = after
        return value

    def byte(self):
        if self.at >= len(self.b):
            raise Refused(7)
        self.at += 1
        return self.b[self.at - 1]

    def span(self):
        n = self.number()
        if self.at + n > len(self.b):
            raise Refused(13)
        self.at += n
        return self.at - n, n


BLANK_ITEM = (0, "entries", 0, 0)
BLANK_ROW = (0, 0, 0)


class Table:
    def __init__(self):
        self.items, self.entries = [], []
        self.item_count = self.entry_count = self.total = self.next = 0
        self.body = self.block = (0, 0)
        self.plain = True

    def item(self, i):
        return self.items[i] if i < len(self.items) else BLANK_ITEM

    def row(self, k):
        return self.entries[k] if k < len(self.entries) else BLANK_ROW


def read_item(r, t):
    """Reads an item, its entries into the table's rows. Tails run on over the batch."""
    group = r.number()
    kind = r.byte()
    if kind == 1:
        n = r.number()
        if len(t.entries) + n > 1024:
            raise Refused(14)
        first = 0
        if n > 0:
            first = r.number()
            if first + n - 1 > U64:
                raise Refused(17)
        for k in range(n):
            tail = r.number()
            if tail > U32:
                raise Refused(16)
            if tail < t.total:
                raise Refused(15)
            t.entries.append((first + k, t.total, tail - t.total))
            t.total = tail
        return group, "entries", n, first
    if kind == 2:
        command = r.byte()
        if command == 1:
            return group, "clean"
        if command == 2:
            return group, "compact", r.number()
        raise Refused(11)
    if kind == 3:
        op = r.byte()
        if op == 1:
            key = r.span()
            return group, "put", key, r.span()
        if op == 2:
            return group, "del", r.span()
        raise Refused(12)
    raise Refused(10)


def read_items(b):
    """A body without footer."""
    r, t = Reader(b), Table()
    count = r.number()
    if count > 256:
        raise Refused(9)
    for i in range(count):
        try:
            t.items.append(read_item(r, t))
        except Refused as why:
            raise Refused(why.number, i)
    t.item_count, t.entry_count = len(t.items), len(t.entries)
    t.next, t.plain, t.body = r.at, r.plain, (0, len(b))
    return t


def check_sealed(b, signature):
    if len(b) <= 4:
        raise Refused(5)
    if b[-4:] != little(crc(b[:-4]) ^ signature):
        raise Refused(6)


def read_body(b, signature):
    check_sealed(b, signature)
    t = read_items(b[:-4])
    t.body = (0, len(b))
    return t


# ---- whole batches -------------------------------------------------------------------------------------------------------------------


def read_header(b):
    """Offset, length, compression type."""
    if len(b) < 16:
        raise Refused(1)
    first, offset = struct.unpack(">QQ", b[:16])
    length, compression = divmod(first, 256)
    if compression > 1:
        raise Refused(2)
    if offset > length:
        raise Refused(3)
    if offset < 16:
        raise Refused(4)
    return offset, length, compression


def check_block(block):
    if block:
        check_sealed(block, 0)


def read_batch(b, signature):
    offset, length, compression = read_header(b)
    if len(b) < length:
        raise Refused(18)
    if compression == 1:
        raise Refused(19)
    block = b[16:offset]
    check_block(block)
    t = read_body(b[offset:length], signature)
    if t.total != len(block[:-4]):
        raise Refused(20)
    t.body, t.block = (offset, length - offset), (16, offset - 16)
    return t


# ---- writing -------------------------------------------------------------------------------------------------------------------------


def part(store, span):
    at, n = span
    if at + n > len(store):
        raise Refused(13)
    return store[at:at + n]


def write_item(t, i, store, checked, used, total):
    """The bytes of item i, and the entries used and the total after it."""
    item = t.item(i)
    b = spell(item[0])
    if item[1] == "entries":
        n, first = item[2:]
        if used + n > 1024:
            raise Refused(14)
        if used + n > t.entry_count:
            raise Refused(13)
        if n > 0 and first + n - 1 > U64:
            raise Refused(17)
        b += bytes([1]) + spell(n) + (spell(first) if n > 0 else b"")
        for k in range(used, used + n):
            total += t.row(k)[2]
            if total > U32:
                raise Refused(16)
            b += spell(total)
        return b, used + n, total
    if item[1] == "clean":
        b += bytes([2, 1])
    elif item[1] == "compact":
        b += bytes([2, 2]) + spell(item[2])
    elif item[1] == "put":
        key, value = part(store, item[2]), part(store, item[3])
        if checked and key.startswith(PREFIX):
            raise Refused(23)
        b += bytes([3, 1]) + spell(len(key)) + key + spell(len(value)) + value
    else:
        key = part(store, item[2])
        b += bytes([3, 2]) + spell(len(key)) + key
    return b, used, total


def write_body(t, store, checked, signature):
    """The body's bytes and its entry total."""
    if t.item_count > 256:
        raise Refused(9)
    b, used, total = spell(t.item_count), 0, 0
    for i in range(t.item_count):
        try:
            more, used, total = write_item(t, i, store, checked, used, total)
        except Refused as why:
            raise Refused(why.number, i)
        b += more
    b += little(crc(b) ^ signature)
    if len(b) > U32:
        raise Refused(22)
    return b, total


def write_batch(t, store, content, checked, signature):
    if t.item_count == 0 and not content:
        return b""
    body, total = write_body(t, store, checked, signature)
    if total > 2**31 - 1:
        raise Refused(22)
    if t.item_count == 0 or total != len(content):
        raise Refused(20)
    block = content + little(crc(content)) if content else b""
    offset = 16 + len(block)
    return struct.pack(">QQ", (offset + len(body)) * 256, offset) + block + body


# ---- entry view and atomic status ----------------------------------------------------------------------------------------------------


def view(queue, length, place, n, append, rewrite):
    block = append if queue == 0 else rewrite
    if len(block) != length:
        raise Refused(20)
    check_block(block)
    return part(block[:-4], (place, n))


def status(item, store):
    """Group and status, or none."""
    if item[1] == "del":
        part(store, item[2])
    if item[1] != "put":
        return None
    key, value = part(store, item[2]), part(store, item[3])
    if key != PREFIX + bytes([1]) or len(value) != 1:
        return None
    if value[0] > 2:
        raise Refused(28)
    return item[0], ["begin", "middle", "end"][value[0]]


# ---- stepping through a body ---------------------------------------------------------------------------------------------------------


def step(t, k):
    """What call number k on an accepted body hands out: an item and its rows, or none at the end."""
    if k >= t.item_count:
        return None
    rows = [x[2] if x[1] == "entries" else 0 for x in t.items[:k + 1]]
    return t.items[k], t.entries[sum(rows[:k]):sum(rows)]


def step_from(b, at, total, used, item, count):
    """What a step hands out at a place, with the total and the entries before it, at that item of so many; and where it leads."""
    if item >= count:
        return None, (at, total, used, item)
    r, t = Reader(b[:-4]), Table()
    r.at, t.total = at, total
    t.entries = [BLANK_ROW] * min(used, 1025)
    got = read_item(r, t)
    rows = t.entries[used:]
    return (got, rows), (r.at, t.total, used + len(rows), item + 1)


def rows_of_first(b):
    """The first item of an unsigned body, which is one of entries, and where its rows stand: place, total, index, how many."""
    item = read_body(b, 0).items[0]
    r = Reader(b)
    for _ in range(2):
        r.number()
    r.byte()
    for _ in range(2 if item[2] > 0 else 1):
        r.number()
    return item, (r.at, 0, item[3], item[2])


def next_row(b, at, total, index, left):
    """The next of `left` rows, from the tail at a place of a body on, and what is then left; or none."""
    if left == 0:
        return None
    r = Reader(b[:-4])
    r.at = at
    tail = r.number()
    if tail > U32:
        raise Refused(16)
    if tail < total:
        raise Refused(15)
    return (index, total, tail - total), (r.at, tail, (index + 1) % 2**64, left - 1)


# ---- rewriting locations -------------------------------------------------------------------------------------------------------------


def last_fits(first, rows):
    return not rows or first + len(rows) - 1 <= U64


def check_table(first, count, rows):
    """A row is a queue, A or R, a file number, and four numbers more."""
    queues = [row[0] for row in rows]
    if count > len(rows) or queues != ["R"] * count + ["A"] * (len(rows) - count) or not last_fits(first, rows):
        raise Refused(26)


def rewrite(first, count, rows, gate, incoming_first, incoming):
    """How many rows are replaced, the count and the rows afterwards."""
    check_table(first, count, rows)
    if any(row[0] != "R" for row in incoming) or not last_fits(incoming_first, incoming):
        raise Refused(27)
    start = max(first, incoming_first)
    end = min(first + len(rows), incoming_first + len(incoming))
    if start >= end:
        return 0, count, rows
    place = start - first
    if place > count:
        raise Refused(24)
    if gate is not None and place < count:
        raise Refused(25)
    replaced = 0
    while start + replaced < end:
        row = rows[place + replaced]
        if row[0] == "A" if gate is None else row[1] > gate:
            break
        replaced += 1
    skipped = start - incoming_first
    after = rows[:place] + incoming[skipped:skipped + replaced] + rows[place + replaced:]
    reached = place + replaced
    return replaced, max(reached, count) if gate is None else reached, after


def fetch(first, count, rows, gate):
    """Place and length."""
    check_table(first, count, rows)
    n = 0
    while count + n < len(rows) and rows[count + n][1] <= gate:
        n += 1
    return count, n
