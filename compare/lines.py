"""The lines of the program vectors: what each kind of case prints, by the model. crates/vectors/src/cases.rt has the kinds."""
import struct

from listing import listing
from model import BLANK_ROW, Reader, Refused, Table, crc, fetch, little, next_row, read_batch, read_body, read_header, read_item
from model import read_items, read_number, rewrite, rows_of_first, spell, status, step, step_from, view, write_batch, write_body
from model import write_item


def data(word):
    return b"" if word == "-" else bytes.fromhex(word)


def shown(count):
    """Which rows a line shows: all where they are few, else the last alone."""
    return range(count) if count <= 8 else range(count - 1, count)


def item_words(item):
    out = ["|", item[0], item[1]]
    for x in item[2:]:
        out += x if isinstance(x, tuple) else [x]
    return out


def counts(t):
    return [t.item_count, t.entry_count, t.total, t.next, *t.body, *t.block]


def table_line(start, name, read):
    try:
        t = read()
    except Refused as why:
        return line("refused", name, why.number, why.item, *counts(Table()))
    words = [start, name, *counts(t)]
    for i in shown(t.item_count):
        words += item_words(t.items[i])
    for k in shown(t.entry_count):
        words += [":", *t.entries[k]]
    return line(*words)


def line(*words):
    return " ".join(str(w) for w in words)


def read_line(b):
    got = read_number(b, 0)
    return line("read", b.hex(), *([got] if isinstance(got, str) else got))


def do_crc(name, b):
    return [line("crc", name, "%08x" % crc(data(b)))]


def do_number(n):
    n = int(n, 16)
    b = spell(n)
    zeros = 64 - (n | 1).bit_length()
    assert len(b) == (70 - zeros) // 7
    out = [line("number", n, len(b), b.hex()), read_line(b)]
    while len(b) < 10:
        b = b[:-1] + bytes([b[-1] + 128, 0])
        out.append(read_line(b))
    return out


def do_read(b):
    return [read_line(data(b))]


def do_big(n):
    n = int(n, 16)
    return [line("u64", struct.pack(">Q", n).hex(), n, 8, "eof")]


def do_u64(at, n, b):
    at, n, b = int(at, 16), struct.pack(">Q", int(n, 16)), data(b)
    if len(b) < at + 8:
        return [line("u64 at", at, "eof", "no-room", b.hex() or "-")]
    after = b[:at] + n + b[at + 8:]
    return [line("u64 at", at, *struct.unpack(">Q", b[at:at + 8]), at + 8, at + 8, after.hex())]


def do_little(n):
    n = int(n, 16)
    return [line("u32", little(n).hex(), n, 4, "eof")]


def do_header(name, b):
    try:
        return [line("header", name, "read", *read_header(data(b)))]
    except Refused as why:
        return [line("header", name, why.number)]


def footed(b, signature):
    return b + little(crc(b) ^ signature)


def do_items(name, signature, b):
    s = int(signature, 16)
    return [table_line("items", name, lambda: read_body(footed(data(b), s), s))]


def do_footed(name, signature, b):
    return [table_line("footed", name, lambda: read_body(data(b), int(signature, 16)))]


def do_plain(name, b):
    try:
        return [line("plain", name, "yes" if read_body(data(b), 0).plain else "no")]
    except Refused as why:
        return [line("plain", name, why.number, why.item)]


def do_go(name, b):
    try:
        t = read_items(data(b))
    except Refused as why:
        return [line("go", name, why.number, why.item)]
    return [line("go", name, "counts", t.item_count, t.entry_count, t.total, t.next)]


def do_display(name, at, b):
    room = 128 - int(at, 16)
    return [line("display", name, text if len(text) < room else "no-room") for text in listing(data(b))]


def do_whole(name, signature, b):
    return [table_line("whole", name, lambda: read_batch(data(b), int(signature, 16)))]


def do_view(name, queue, length, place, n, append, rewrite):
    numbers = [int(x, 16) for x in (queue, length, place, n)]
    try:
        got = view(*numbers, data(append), data(rewrite))
    except Refused as why:
        return [line("view", name, why.number, 0)]
    return [line("view", name, 0, len(got), *([got.hex()] if got else []))]


def do_status(name, lent, b):
    b = data(b)
    try:
        got = status(read_item(Reader(b), Table()), b[:int(lent, 16)])
    except Refused as why:
        return [line("status", name, why.number, 0)]
    return [line("status", name, *(got or ["no-mark"]))]


def edit(t, what, row, value):
    """A table with one thing changed, as crates/vectors/src/edits.rt lists them."""
    n = int(value, 16)
    k = 0 if row == "-" else int(row, 16)
    if what == "items":
        t.item_count = n
    elif what == "rows":
        t.entry_count = n
    elif what == "length":
        t.entries += [BLANK_ROW] * (k + 1 - len(t.entries))
        t.entries[k] = (*t.entries[k][:2], n)
    elif what == "unread":
        pass  # what no writer looks at
    else:
        item = list(t.items[k])
        place, field = {
            "count": (2, None), "first": (3, None), "place": (2, 0), "key": (2, 1), "start": (3, 0), "value": (3, 1),
        }[what]
        if field is None:
            item[place] = n
        else:
            item[place] = (n, item[place][1]) if field == 0 else (item[place][0], n)
        t.items[k] = tuple(item)


def encode_table(store, edits):
    """A refused reading hands back a table with no rows."""
    try:
        t = read_items(store)
    except Refused:
        t = Table()
    for k in range(0, len(edits), 3):
        edit(t, *edits[k:k + 3])
    return t


def encode(writer, keys, signature, other, room, content, body, *edits):
    """The bytes written."""
    assert writer in ("body", "whole") and keys in ("checked", "unchecked") and len(edits) in (0, 3, 6, 9)
    store, checked, signature = data(body), keys == "checked", int(signature, 16)
    t = encode_table(store, edits)
    if writer == "whole":
        b = write_batch(t, store, data(content), checked, signature)
    else:
        b, _ = write_body(t, store, checked, signature)
    if len(b) > int(room, 16):
        raise Refused(21)
    return b


def do_encode(name, *words):
    writer, other, room = words[0], int(words[3], 16), int(words[4], 16)
    before = bytes([0xAA]) * room
    try:
        b = encode(*words)
    except Refused as why:
        return [line("encode", name, why.number, why.item, 0, "-", before.hex() or "-")]
    out = [line("encode", name, 0, 0, len(b), b.hex() or "-", before[len(b):].hex() or "-")]
    if b:
        read = read_batch if writer == "whole" else read_body
        out.append(table_line("back", name, lambda: read(b, other)))
    return out


def piece_bytes(item, store):
    """The content of an item by itself, up to its tails."""
    if item[1] == "entries":
        return spell(item[2]) + (spell(item[3]) if item[2] > 0 else b"")
    t = Table()
    t.items = [(0, *item[1:])]
    return write_item(t, 0, store, False, 0, 0)[0][2:]


def alone(at, total, lent, rows, first, second, b):
    """What writing an item by itself gives, and then its content: each as bytes, or the refusal's number; and the total after it."""
    at, total, lent, rows = [int(x, 16) for x in (at, total, lent, rows)]
    b = data(b)
    t = Table()
    t.items = [read_item(Reader(b), Table())]
    t.entries = [(0, 0, int(first, 16)), (0, 0, int(second, 16))][:rows]
    t.entry_count = len(t.entries)

    def fitting(write):
        try:
            got, after = write()
            if at + len(got) > 32:
                raise Refused(21)
            return got, after
        except Refused as why:
            return why.number, 0

    def whole():
        got, _, after = write_item(t, 0, b[:lent], False, 0, total)
        return got, after

    return t, b[:lent], at, fitting(whole), fitting(lambda: (piece_bytes(t.items[0], b[:lent]), 0))


def do_alone(name, *words):
    _, _, at, *answers = alone(*words)
    out = []
    for start, (got, after) in zip(("alone", "piece"), answers):
        buffer = b"\xaa" * 32
        if isinstance(got, bytes):
            buffer = buffer[:at] + got + buffer[at + len(got):]
            out.append(line(start, name, 0, at + len(got), after, buffer.hex()))
        else:
            out.append(line(start, name, got, 0, 0, buffer.hex()))
    return out


def locations(word):
    """Rows of locations, as crates/vectors/src/locations.rt has them; a number that is missing is 0."""
    rows = [] if word == "-" else [(row.split(",") + ["0"] * 5)[:6] for row in word.split(";")]
    return [(row[0], *[int(x, 16) for x in row[1:]]) for row in rows]


class Call:
    """A call on a table of locations: its words, what it is asked on, and what it answers."""

    def __init__(self, first, count, rows, words):
        self.kind, self.first, self.count, self.rows = words[0], first, count, rows
        self.gate = None if words[1] == "-" else int(words[1], 16)
        self.number, self.place, self.length = 0, 0, 0
        self.replaced, self.count_after, self.after = 0, count, rows
        try:
            if self.kind == "rewrite":
                self.incoming_first, self.incoming = int(words[2], 16), locations(words[3])
                self.replaced, self.count_after, self.after = rewrite(
                    first, count, rows, self.gate, self.incoming_first, self.incoming)
            else:
                self.place, self.length = fetch(first, count, rows, self.gate)
        except Refused as why:
            self.number = why.number


def calls(first, count, rows, *words):
    """The calls of a line, each on what the one before it left."""
    first, count, rows = int(first, 16), int(count, 16), locations(rows)
    out = []
    while words:
        n = {"rewrite": 4, "fetch": 2}[words[0]]
        out.append(Call(first, count, rows, words[:n]))
        count, rows, words = out[-1].count_after, out[-1].after, words[n:]
    return out


def do_memtable(name, *words):
    out = []
    for c in calls(*words):
        if c.kind == "rewrite":
            rows = [x for row in c.after for x in (":", *row)]
            out.append(line("rewrite", name, c.number, c.replaced, c.count_after, *rows))
        else:
            out.append(line("fetch", name, c.number, c.place, c.length))
    return out


def got_words(got):
    if got is None:
        return ["end"]
    item, rows = got
    return [*item_words(item), *[x for row in rows for x in (":", *row)], "."]


def do_open(name, signature, count, b):
    """What each step answers, and what call number a third of that many does."""
    count = int(count, 16)
    try:
        t = read_body(data(b), int(signature, 16))
        words = [got_words(step(t, k)) for k in range(count)]
    except Refused as why:
        words = [["refused", why.number, why.item]] * count
    return [line("open", name, *sum(words, [])), line("nth", name, *words[count // 3])]


def do_jump(name, *words):
    *place, count, calls = [int(x, 16) for x in words[:6]]
    out = []
    for _ in range(calls):
        try:
            got, place = step_from(data(words[6]), *place, count)
            out += got_words(got)
        except Refused as why:
            out += ["refused", why.number, place[3]]
    return [line("jump", name, *out, *place)]


def do_tail(name, b, other):
    item, rows = rows_of_first(data(b))
    out = item_words(item)
    for _ in range(item[2] + 1):
        try:
            got = next_row(data(other), *rows)
        except Refused as why:
            out += ["refused", why.number]
            continue
        if got is None:
            out.append(".")
        else:
            row, rows = got
            out += [":", *row]
    return [line("tail", name, *out)]


DO = {
    "crc": do_crc, "number": do_number, "read": do_read, "big": do_big, "u64": do_u64, "little": do_little, "header": do_header,
    "items": do_items, "footed": do_footed, "plain": do_plain, "go": do_go,
    "display": do_display, "whole": do_whole, "view": do_view, "status": do_status, "encode": do_encode, "alone": do_alone,
    "memtable": do_memtable, "open": do_open,
    "jump": do_jump, "tail": do_tail,
}
