#!/usr/bin/env python3
"""Holds the program itemlist to document 01's lines, worked out by model.py, on bodies that show each kind of line.

    python3 compare/listing.py PROGRAM

Prints how many bodies agree; one that does not is shown, with exit status 1.
"""
import resource
import subprocess
import sys

sys.dont_write_bytecode = True

from model import Refused, read_items, spell

READ = 65536


def listing(body):
    """What document 01 has itemlist print for these bytes."""
    try:
        t = read_items(body[:READ])
    except Refused as why:
        return ["refused %d %d" % (why.number, why.item)]
    out = ["items %d entries %d bytes %d" % (t.item_count, t.entry_count, t.total)]
    rows = iter(t.entries)
    for group, kind, *more in t.items:
        if kind == "entries":
            out += ["%d entry %d %d %d" % ((group,) + next(rows)) for _ in range(more[0])]
        elif kind in ("put", "del"):
            out.append(" ".join([str(group), kind] + [str(length) for _, length in more]))
        else:
            out.append(" ".join([str(group), kind] + [str(word) for word in more]))
    return out


def bodies():
    yield bytes.fromhex("020102010301030a04040a")
    yield b""
    yield b"\x00"
    yield bytes.fromhex("06" "010201" "0502" "02ac02" "0203" "01016b" "0176" "0203" "02016b" "0701" "00" "0801" "020a0406")
    yield bytes.fromhex("0201010205040301020103")
    yield bytes.fromhex("01" "00010100")
    yield bytes.fromhex("ff" * 9 + "01")
    yield bytes.fromhex("01000300")
    yield bytes.fromhex("810202")
    # 256 items, and the longest list of entries
    yield b"\x80\x02" + bytes.fromhex("010201") * 256
    yield bytes.fromhex("01" "010180080a") + bytes(1024)
    # lines of more than 65,536 bytes, which is what the program keeps back
    most = spell(2**64 - 1)
    yield spell(256) + (most + b"\x02\x02" + most) * 255 + most + b"\x01" + spell(1024) + spell(2**64 - 1024) + spell(2**32 - 1) * 1024
    # a key up to the last byte that is read, and one byte further
    yield bytes.fromhex("01" "010302") + bytes.fromhex("f9ff03") + bytes(READ - 7)
    yield bytes.fromhex("01" "010302") + bytes.fromhex("faff03") + bytes(READ)


def main():
    agreed = 0
    for body in bodies():
        said = subprocess.run(sys.argv[1:], input=body, capture_output=True, check=True,
                              preexec_fn=lambda: resource.setrlimit(resource.RLIMIT_STACK, (512 * 1024,) * 2)).stdout
        if said.decode() != "".join(line + "\n" for line in listing(body)):
            print("not as document 01 has it: %s" % body[:64].hex(), file=sys.stderr)
            sys.exit(1)
        agreed += 1
    print("itemlist: %d bodies listed as document 01 has it, on a stack of 512 KiB" % agreed)


if __name__ == "__main__":
    main()
