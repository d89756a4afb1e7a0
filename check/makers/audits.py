"""Makes a written capture and its report from a number: those of a run, most of them changed in one
or two places, or of frames that no run wrote."""

import random

from makers.files import make_capture
from model.built import WHOLE
from model.capture import ETHERNET, RECORD_HEAD, read_head, read_records, write_head, write_record
from model.formats import ACK, FIN, PSH, RST, SYN, TCP, read_ipv4, read_tcp, write_ipv4, write_tcp
from model.packets import INSIDE, OUTSIDE, inward, outward, tcp
from model.run import run
from model.words import read_words

RAW_HEAD = bytes.fromhex("d4c3b2a1020004000000000000000000" "0000040065000000")
OFFSETS = [0, 0, 0, 1, 2, 3, 5, -1, -2, -5, 1000, 2**31 - 2, 2**31 - 1, -2**31, 1 - 2**31, 2**32 - 2]
INWARD_FLAGS = [PSH | ACK, PSH | ACK, PSH | ACK, PSH | ACK, FIN | ACK, FIN | ACK, RST]
OUTWARD_FLAGS = [ACK, ACK, ACK, RST | ACK, RST | ACK, RST, SYN | ACK, SYN]
FLAGS = [SYN, SYN | ACK, ACK, ACK, FIN | ACK, FIN | ACK, PSH | ACK, RST, RST | ACK]


def near(rng, number):
    return (number + rng.choice([-2**31, -1000, -2, -1, 0, 1, 2, 1000, 2**31])) % 2**32


def changed_segment(rng, packet):
    """A packet whose segment has other numbers, flags or octets, with right checksums."""
    ip = read_ipv4(packet)
    if ip.protocol != TCP or len(packet) < 40:
        return spoilt(rng, packet)
    tcp = read_tcp(packet[ip.header:ip.total])
    seq, ack, flags, payload = tcp.seq, tcp.ack, tcp.flags, tcp.payload
    kind = rng.randrange(6)
    if kind == 0:
        seq = near(rng, seq)
    elif kind == 1:
        ack = near(rng, ack)
    elif kind == 2:
        flags = rng.choice(FLAGS)
    elif kind == 3:
        payload = payload[:rng.randrange(len(payload) + 1)]
    elif kind == 4:
        payload = payload + bytes([rng.randrange(256)])
    else:
        payload = bytes(octet ^ (rng.random() < 0.1) for octet in payload)
    return write_ipv4(ip, ip.ttl, write_tcp(ip.src, ip.dst, tcp, seq, ack, flags, tcp.options, payload))


def spoilt(rng, packet):
    """A packet with one octet changed, one more or one less, or with another time to live."""
    kind = rng.randrange(4)
    if kind == 0 or not packet:
        return packet + b"x"
    if kind == 1:
        return packet[:-1]
    if kind == 2 and len(packet) >= 20:
        return write_ipv4(read_ipv4(packet), rng.choice([0, 1, 30, 31, 254, 255]), packet[20:])
    at = rng.randrange(len(packet))
    return packet[:at] + bytes([packet[at] ^ 1 << rng.randrange(8)]) + packet[at + 1:]


def changed_frame(rng, link, frame):
    front = 14 if link == ETHERNET else 0
    change = changed_segment if rng.random() < 0.8 else spoilt
    return frame[:front] + change(rng, frame[front:])


def leave_out_or_double(items, at, out):
    if out:
        items.pop(at)
    else:
        items.insert(at, items[at])


def changed_capture(rng, octets):
    """The capture with a frame changed, left out, twice or moved, or with a fault."""
    head = read_head(octets)
    frames = [record.octets for record in read_records(octets, head)[0]]
    if not frames:
        return octets[:rng.randrange(len(octets) + 1)]
    at, kind = rng.randrange(len(frames)), rng.randrange(12)
    if kind < 2:
        leave_out_or_double(frames, at, kind == 0)
    elif kind == 2:
        frames.insert(rng.randrange(len(frames)), frames.pop(at))
    elif kind == 3:
        place = rng.randrange(len(octets))
        return octets[:place] + bytes([rng.randrange(256)]) + octets[place + 1:]
    elif kind == 4:
        return octets[:len(octets) - rng.randrange(1, RECORD_HEAD * 2)]
    else:
        frames[at] = changed_frame(rng, head.link, frames[at])
    return write_head(head) + b"".join(write_record(head, 0, 0, frame) for frame in frames)


def changed_line(rng, line):
    words = line.split(" ")
    at = rng.randrange(len(words))
    if at == 1:
        words[1] = rng.choice(["in", "out", "-"])
    elif words[at].isdigit():
        words[at] = str(max(0, int(words[at]) + rng.choice([-1, 1])))
    elif words[at][:1] in "@+":
        words[at] = rng.choice("@+") + str(rng.randrange(4))
    else:
        words.pop(at)
    return " ".join(words)


def changed_report(rng, text):
    """The report with a line changed, left out or twice, or with an octet changed."""
    lines = text.split("\n")
    at, kind = rng.randrange(len(lines)), rng.randrange(8)
    if kind < 2:
        leave_out_or_double(lines, at, kind == 0)
    elif kind == 2:
        lines[-2:-1] = ["stop cut 24"]
    elif kind == 3:
        return text[:rng.randrange(len(text) + 1)]
    else:
        lines[at] = changed_line(rng, lines[at])
    return "\n".join(lines)


def free_frame(rng, base, is_inward):
    """A frame of few octets whose numbers are near a base or 2^31 from it."""
    number = (base + rng.choice(OFFSETS)) % 2**32
    if not is_inward:
        return outward(TCP, tcp(INSIDE, OUTSIDE, 80, 40000, 5001, number, rng.choice(OUTWARD_FLAGS)))
    if rng.random() < 0.1:
        return inward(TCP, tcp(OUTSIDE, INSIDE, 40000, 80, (base - 1) % 2**32, 0, SYN))
    flags = rng.choice(INWARD_FLAGS)
    octets = b"" if flags & RST else bytes(rng.choice(b"aaab") for _ in range(rng.randrange(5)))
    return inward(TCP, tcp(OUTSIDE, INSIDE, 40000, 80, number, 5001, flags, octets))


def free_audit(rng):
    """The frames of one era or two, in any order, each with an entry that passes it."""
    head, base = read_head(RAW_HEAD), rng.choice([0, 1000, 2**31, 2**32 - 1])
    sides = [rng.random() < 0.6 for _ in range(rng.randrange(1, 9))]
    sides[0] = sides[0] and rng.random() < 0.2
    frames = [free_frame(rng, base, is_inward) for is_inward in sides]
    lines = ["%d %s pass 1 @%d" % (i, "in" if is_inward else "out", rng.choice([1] * 9 + [2]))
             for i, is_inward in enumerate(sides, 1)]
    text = "\n".join(["norm 2"] + lines + ["end %d %d" % (len(sides), len(sides))]) + "\n"
    return write_head(head) + b"".join(write_record(head, 0, 0, frame) for frame in frames), text, 30


def make_audit(number):
    """The octets of the written capture, the text of the report, and the number of routers."""
    rng = random.Random("audit " + number)
    if rng.random() < 0.4:
        return free_audit(rng)
    words, octets, _ = make_capture(number, WHOLE, both=0.02)
    status, written, text = run(words, octets, WHOLE)
    command = read_words(words, WHOLE) if status != 2 else None
    hops = command.settings.hops if command is not None and command.kind == "run" else 30
    for _ in range(rng.choice([0, 1, 1, 1, 2])):
        if written and rng.random() < 0.8:
            written = (changed_capture(rng, written) if status != 3 and not isinstance(read_head(written), str)
                       else written)
        else:
            text = changed_report(rng, text)
    return written, text, hops if rng.random() < 0.9 else rng.randrange(255)
