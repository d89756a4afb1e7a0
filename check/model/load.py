"""The load generator, and the summary of a load run."""

from types import SimpleNamespace

from model.capture import RAW
from model.engine import open_engine, step
from model.formats import TCP
from model.packets import INSIDE, address, flags_of, ipv4, tcp
from model.words import default_settings, read_prefix


def made_segment(flow, inbound, ident, seq, ack, letters, payload=b""):
    src, dst = address("198.51.100.%d" % (flow + 1)), INSIDE
    ports = (40000 + flow, 80)
    if not inbound:
        src, dst, ports = dst, src, (80, 40000 + flow)
    message = tcp(src, dst, ports[0], ports[1], seq, ack, flags_of(letters), payload, window=65535)
    return ipv4(src, dst, TCP, message, ident=ident)


def octets_from(flow, start):
    return bytes((place + flow) % 251 for place in range(start, start + 512))


def next_packet(flow, turn, action, ident):
    """The packet of a flow's turn; `turn` has how often it came, and how much was sent and
    acknowledged."""
    base = 1000 * (flow + 1)
    turn.count += 1
    if turn.count == 1:
        return made_segment(flow, True, ident, base - 1, 0, "S")
    if turn.count == 2:
        return made_segment(flow, False, ident, 5000, base, "SA")
    if action <= 3 and turn.sent - turn.acked + 512 <= 32768:
        turn.sent += 512
        start = turn.sent - 512
        return made_segment(flow, True, ident, base + start, 5001, "AP", octets_from(flow, start))
    if action in (4, 5) and turn.sent - turn.acked >= 512:
        start = turn.sent - 512
        octets = octets_from(flow, start)
        if action == 5:
            octets = b"\xff" + octets[1:]
        return made_segment(flow, True, ident, base + start, 5001, "AP", octets)
    turn.acked = turn.sent
    return made_segment(flow, False, ident, 5001, base + turn.sent, "A")


def generated(seed, count):
    x = seed
    turns = [SimpleNamespace(count=0, sent=0, acked=0) for _ in range(64)]
    for i in range(count):
        x = (6364136223846793005 * x + 1442695040888963407) % 2**64
        flow, action = x // 2**33 % 64, x // 2**40 % 8
        octets = next_packet(flow, turns[flow], action, i % 65536)
        yield SimpleNamespace(seconds=i // 1000, fraction=i % 1000 * 1000, original=len(octets), offset=0,
                              side=None, octets=octets)


def run_load(seed, count):
    settings = default_settings()
    settings.prefixes = [read_prefix("10.0.0.0/8")]
    engine = open_engine(settings, RAW)
    packets, rules = 0, {}
    for record in generated(seed, count):
        entry, written = step(engine, record)
        packets += len(written)
        for rule in entry.rules:
            rules[rule] = rules.get(rule, 0) + 1
    lines = ["load %d %d" % (seed, count), "records %d" % count, "packets %d" % packets, "eras %d" % engine.begun]
    return "\n".join(lines + ["rule %s %d" % pair for pair in rules.items()] + ["end"]) + "\n"
