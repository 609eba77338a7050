"""Writes the disk image of a volume of empty tracks with holes where its zeros are: make_empty_image.py MODEL CYLINDERS FILE."""
import struct
import sys

# The device type's last byte, and the size of a track's room.
MODELS = {"3390": (0x90, 56832), "3380": (0x80, 47616)}

kind, size = MODELS[sys.argv[1]]
tracks = 15 * int(sys.argv[2])
with open(sys.argv[3], "wb") as image:
    image.write(struct.pack("<8sIIBBH492x", b"CKD_P370", 15, size, kind, 0, 0))
    for t in range(tracks):
        image.seek(512 + t * size)
        place = struct.pack(">HH", t // 15, t % 15)
        image.write(b"\0" + place + place + bytes([0, 0, 0, 8]) + bytes(8) + b"\xff" * 8)
    image.truncate(512 + tracks * size)
