"""Byte planes of dense samples, for the recorder. `slewtext planes` and `unplanes` call it.

The file is MARK, the count of samples (8 bytes, top byte first), then the 14 columns, one after another (time, attitude, rate, torque, body momentum). A column is cut into blocks of
4,096 numbers, the last one shorter; a block is its planes: each number's 64 bits combined with its predecessor's by exclusive or (a block's first is kept), then all top bytes, all next
bytes, down to the lowest. It is crates/byte_planes's `encode`."""

import itertools
import operator
import struct

from slewforms import Fault

MARK = b"slewpln1"
BLOCK = 4096
SAMPLES_MOST = 100_000


def encode_planes(column):
    """The planes of a column of up to 4,096 numbers below 2^64."""
    deltas = map(operator.xor, column, [0] + column[:-1])
    flat = struct.pack(f">{len(column)}Q", *deltas)
    return b"".join(flat[j::8] for j in range(8))


def decode_planes(planes):
    """The column of planes, 8 bytes a number."""
    count = len(planes) // 8
    flat = bytearray(8 * count)
    for j in range(8):
        flat[j::8] = planes[j * count:(j + 1) * count]
    return list(itertools.accumulate(struct.unpack(f">{count}Q", flat), operator.xor))


def samples_text(columns):
    """What slew_samples prints of the 14 columns."""
    lines = [" (sample " + " ".join(f"{bits:016X}".rstrip("0") or "0" for bits in row) + ")" for row in zip(*columns)]
    return "(samples\n" + "\n".join(lines) + ")\n"


def planes_file(text, rows):
    """The file of a text whose rows of words are known to be 14 floats each."""
    columns = [[int(word.ljust(16, "0"), 16) for word in column] for column in zip(*rows)]
    if samples_text(columns) != text:
        raise Fault("The samples are not as slew_samples prints them, byte for byte: they would not come back.")
    if len(rows) > SAMPLES_MOST:
        raise Fault("There are more than 100,000 samples.")
    blocks = [column[at:at + BLOCK] for column in columns for at in range(0, len(rows), BLOCK)]
    return MARK + struct.pack(">Q", len(rows)) + b"".join(encode_planes(block) for block in blocks)


def text_of_planes(file):
    if file[:8] != MARK or len(file) < 16:
        raise Fault("This is no file of byte planes: it does not begin with 'slewpln1' and a count.")
    count = int.from_bytes(file[8:16], "big")
    if not 1 <= count <= SAMPLES_MOST:
        raise Fault("The file of byte planes is damaged: its count of samples is not 1 to 100,000.")
    if len(file) != 16 + 14 * 8 * count:
        raise Fault(f"The file of byte planes is damaged: {count} samples are {16 + 14 * 8 * count} bytes, and it has {len(file)}.")
    columns = [file[16 + 8 * count * k:16 + 8 * count * (k + 1)] for k in range(14)]
    return samples_text([[x for at in range(0, 8 * count, 8 * BLOCK) for x in decode_planes(column[at:at + 8 * BLOCK])] for column in columns])
