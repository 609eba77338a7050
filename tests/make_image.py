"""Writes the disk image of a volume file from standard input: a writer from docs/FORMATS.md alone."""
import struct
import sys

# The device type's last byte, and the size of a track's room.
MODELS = {1: (0x90, 56832), 2: (0x80, 47616)}

data = sys.stdin.buffer.read()
signature, model, cylinders, zeros = struct.unpack_from(">8sBBH", data)
assert (signature, zeros) == (b"CKDVOL01", 0)
kind, size = MODELS[model]
image = struct.pack("<8sIIBBH492x", b"CKD_P370", 15, size, kind, 0, 0)
at = 12
for _ in range(cylinders * 15):
    (length,) = struct.unpack_from(">I", data, at)
    image += data[at + 4:at + 4 + length].ljust(size, b"\0")
    at += 4 + length
assert at == len(data)
sys.stdout.buffer.write(image)
