"""Lists a volume file from standard input, as `./ckd list` does: a reader from docs/FORMATS.md alone."""
import struct
import sys

MODELS = {1: 3390, 2: 3380}

data = sys.stdin.buffer.read()
signature, model, cylinders, zeros = struct.unpack_from(">8sBBH", data)
assert (signature, zeros) == (b"CKDVOL01", 0) and 1 <= cylinders <= 64
print("VOLUME", MODELS[model], cylinders)
at = 12
for number in range(cylinders * 15):
    (length,) = struct.unpack_from(">I", data, at)
    track = data[at + 4:at + 4 + length]
    at += 4 + length
    assert track[:5] == struct.pack(">BHH", 0, number // 15, number % 15)
    place = 5
    records = 0
    while track[place:place + 8] != b"\xff" * 8:
        _, _, _, key, body = struct.unpack_from(">HHBBH", track, place)
        place += 8 + key + body
        records += 1
    assert place + 8 == length
    print("TRACK", number, "RECORDS", records, "BYTES", length)
assert at == len(data)
print("FINISH")
