"""Reads the label of the volume in a disk image, as read_label.c does: read_label.py LIBRARY FILE, where LIBRARY is libckd.so."""
import ctypes
import os
import sys


class Subsystem(ctypes.Structure):
    _fields_ = [("is_open", ctypes.c_bool), ("place", ctypes.c_void_p)]


class File(ctypes.Structure):
    _fields_ = [("descriptor", ctypes.POINTER(ctypes.c_int))]


class Ccw(ctypes.Structure):
    _fields_ = [("command", ctypes.c_uint8), ("flags", ctypes.c_uint8), ("count", ctypes.c_uint16),
                ("data", ctypes.c_char_p), ("length", ctypes.c_size_t)]


class Refusal(ctypes.Structure):
    _fields_ = [("word", ctypes.c_uint16), ("why", ctypes.c_uint32)]


CHAIN, SUPPRESS_LENGTH = 0x40, 0x20
library = ctypes.CDLL(sys.argv[1])
byte, half = ctypes.c_uint8, ctypes.c_uint16
extent = bytes([0x40, 0xC0] + [0] * 14)
locate = bytes([6, 0, 0, 1] + [0] * 8 + [3, 0, 0, 0])
ccws = (Ccw * 3)(Ccw(0x63, CHAIN, 16, extent, 16), Ccw(0x47, CHAIN, 16, locate, 16), Ccw(0x0E, SUPPRESS_LENGTH, 84))
subsystem, refusal, ordinal = Subsystem(), Refusal(), half()
label, sent = (byte * 84)(), ctypes.c_size_t()


def call(name, *rest):
    result = getattr(library, name)(ctypes.byref(subsystem), *rest)
    if result != 0:
        sys.exit(f"read_label: {name} answers {result}")


file = ctypes.c_int(os.open(sys.argv[2], os.O_RDWR))
call("ckd_open", half(1), half(1))
call("ckd_add_image", byte(0), File(ctypes.pointer(file)))
call("ckd_plan", byte(0), byte(1), ccws, ctypes.c_size_t(3), ctypes.byref(refusal))
call("ckd_start", byte(0), byte(1), ctypes.byref(ordinal))
call("ckd_run", byte(0), ctypes.c_uint32(3))
call("ckd_last_data", byte(0), label, ctypes.c_size_t(84), ctypes.byref(sent))
print(bytes(label[8:14]).hex().upper())
call("ckd_close")
