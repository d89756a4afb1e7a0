#!/usr/bin/env python3
"""norm over a capture file, by the library, from Python: OUT and the report of `norm run`.

usage: normcap.py LIBNORM.SO IN OUT "run [OPTION..] IN OUT PREFIX.."

IN is a classic pcap, and OUT a file that does not exist. Any fault ends it with a traceback.
"""
import ctypes
import struct
import sys
from ctypes import byref, c_bool, c_size_t, c_uint32, c_void_p


def numbers(*names):
    return [(name, c_uint32) for name in names]


def fields(*rows):
    return type("Fields", (ctypes.Structure,), {"_fields_": rows})()


handle, gate = fields(("live", c_bool), ("at", c_void_p)), fields(("frames", c_uint32))
arrival = fields(*numbers("port", "tag", "seconds", "fraction", "original"))
answer = fields(*numbers("fate", "records", "verdict", "frames", "port"), ("as_read", c_bool))
frame, size, room = fields(("size", c_size_t), ("port", c_uint32)), c_size_t(), ctypes.create_string_buffer(65549)
library, words = ctypes.CDLL(sys.argv[1]), sys.argv[4].encode()


def call(name, *more):
    result = getattr(library, "norm_" + name)(byref(handle), *more)
    if result != 0:
        raise OSError("norm_%s answers %d" % (name, result))


def line(name, *more):
    call(name, *more, room, c_size_t(len(room)), byref(size))
    sys.stdout.write(room[:size.value].decode("ascii"))


with open(sys.argv[2], "rb") as file, open(sys.argv[3], "xb") as out:
    head = file.read(24)
    order = "<" if head[:4] in (b"\xd4\xc3\xb2\xa1", b"\x4d\x3c\xb2\xa1") else ">"
    gate.frames = {1: 1, 101: 2}[struct.unpack(order + "I", head[20:])[0]]
    call("open", byref(gate), words, c_size_t(len(words)))
    line("first")
    out.write(head[:8] + struct.pack(order + "QI", 0, 262144) + head[20:])
    while record := file.read(16):
        arrival.seconds, arrival.fraction, length, arrival.original = struct.unpack(order + "4I", record)
        (octets,) = struct.unpack("%ds" % length, file.read(length))
        call("step", byref(arrival), octets, c_size_t(length), byref(answer))
        for at in range(answer.frames):
            if not answer.as_read:
                call("frame", c_uint32(at), room, c_size_t(len(room)), byref(frame))
                octets = room[:frame.size]
            out.write(record[:8] + struct.pack(order + "2I", len(octets), len(octets)) + octets)
        line("line", c_uint32(0))
    line("last")
library.norm_close(byref(handle))
