"""Runs on attacks: segments and fragments that contradict earlier ones, and noise."""

from model.formats import ICMP, UDP
from model.packets import INSIDE, OUTSIDE, capture_of, inward, ipv4, opening, segment, udp

OPTIONS = [[], [], [], ["--both"], ["--both"], ["--mtu=576"], ["--cells=2"], ["--offload"]]


def text_of(rng, count):
    """Octets of which most are equal at the same place."""
    return bytes(rng.choice(b"aaaaab") for _ in range(count))


def of_stream(rng, state):
    """A segment of either side near what was sent before, or one that acknowledges."""
    side = rng.choice("in in in out".split())
    base, top = state[side]
    seq = (base + max(0, top + rng.choice([0, -2, -5, -9, -14, 1]))) % 2**32
    octets = text_of(rng, rng.choice([0, 1, 3, 6, 12, 40]))
    state[side] = base, max(top, (seq - base) % 2**32 + len(octets))
    other = state["out" if side == "in" else "in"]
    ack = (other[0] + rng.choice([0, other[1], other[1]])) % 2**32
    letters = "PA" if octets else "A"
    return segment("%s %s %d,%d" % (">" if side == "in" else "<", letters, seq, ack), payload=octets)


def of_datagram(rng):
    """A fragment of one of two datagrams."""
    octets = text_of(rng, rng.choice([8, 8, 16, 24]))
    return ipv4(OUTSIDE, INSIDE, rng.choice([ICMP, ICMP, UDP]), octets, offset=8 * rng.randrange(1, 6),
                mf=rng.random() < 0.97, ident=rng.choice([1, 1, 2]))


def noise(rng):
    text = rng.choice(["> R 1", "> SA 1,1", "> SF 1", "> R 1,0 a", ">  1", "> A 1,1", "> SFA 1,1 ab"])
    low = inward(UDP, udp(OUTSIDE, INSIDE, 1, 2, b"hi"), ttl=rng.choice([1, 64]))
    return rng.choice([segment(text, outside_port=50000), low, b"\x65" + low[1:]])


def again(rng, base):
    """A reset of the connection, and another one of the same addresses and ports."""
    return [segment("< RA 5001,%d" % base), *opening_at(rng.choice([base, base + 3]))]


def opening_at(base):
    return [segment("> S %d" % ((base - 1) % 2**32)), segment("< SA 5000,%d" % (base % 2**32)),
            segment("> A %d,5001" % (base % 2**32))]


def evidence_run(rng):
    """The options of a run, and the octets of a capture."""
    base = rng.choice([1000, 1000, 2**32 - 5])
    state, packets = {"in": (base, 0), "out": (5001, 0)}, opening() if base == 1000 else opening_at(base)
    for _ in range(rng.choice([6, 12, 20, 30])):
        kind = rng.randrange(20)
        if kind < 12:
            packets.append(of_stream(rng, state))
        elif kind < 17:
            packets.append(of_datagram(rng))
        elif kind < 19:
            packets.append(noise(rng))
        else:
            packets += again(rng, base)
    times = [number * rng.choice([0, 0, 7]) for number in range(len(packets))]
    return rng.choice(OPTIONS), capture_of(list(zip(packets, times)))


def evidence_words(rng):
    more = rng.choice([[], [], [], ["--rule=T_CLASH,F_CLASH"], ["--host=10.0.0.1"], ["--era=1"],
                       ["--only=fix,drop"], ["--summary"], ["--side=in"]])
    form = rng.choice([[], [], ["--json"]] + ([] if "--summary" in more else [["--table=records"]]))
    return ["--evidence"] + form + more
