"""What a run keeps of the streams that it writes inwards, read from its records, its entries and
its frames.

A watch follows one engine. It uses no rule and no quantity of the model. It reassembles datagrams
by what the entries name, and reads each sequence number relative to what was acknowledged before
its record. It notes which record brought each octet. A fault is a pair of a law and a text. The
laws:

streams      receivers of an era read parts of one stream: the octet first written at each offset
brought      each octet of that stream, and its end, was brought there by a forwarded record of IN
clashes      T_CLASH and F_CLASH are named exactly where octets differ
agreeing     no line of an era whose forwarded records agree names T_CLASH
recorded     if all inbound and sideless lines are `pass`, the inbound packets are those written
successors   what was read in an era that ended quietly is not written again in the next one
"""

from collections import Counter
from types import SimpleNamespace

from model.capture import ETHERNET
from model.eras import near
from model.formats import ACK, FIN, RST, SYN, TCP, read_ipv4, read_tcp, u16
from model.receivers import POLICIES, open_stream, take
from model.words import side_of

LAWS = ("streams", "brought", "clashes", "agreeing", "recorded", "successors")

HALF = 2**31

# A fragment that one of these rules drops is not compared with those that are held.
BEFORE_F_CLASH = {"I_OPT_BAD", "I_ROUTE", "P_PROTO", "F_DF", "F_EMPTY", "F_ALIGN", "F_BIG", "F_END"}


def open_watch(settings, link):
    """`segment` is that of the last record, of its whole datagram; `counts` has how often each law
    was looked for.
    """
    return SimpleNamespace(settings=settings, at=14 if link == ETHERNET else 0, ethernet=link == ETHERNET, now=0,
                           held={}, eras={}, segment=None,
                           steps=[], faults=[], counts=Counter())


def fault(watch, law, text):
    watch.faults.append((law, text))


def follow(watch, record, step, origin=None):
    """Takes the next record with its entry, its frames, and what is written of these.

    `origin` is the segment of the record of IN, if this record is a frame of another engine.
    """
    entry, frames, written = step
    watch.steps.append((record, entry, written))
    watch.now = max(watch.now, record.seconds)
    for key in [key for key, fragments in watch.held.items() if watch.now > fragments[0].now
                + watch.settings.frag_time]:
        del watch.held[key]
    watch.segment = None
    ip = read_ipv4(record.octets[watch.at:])
    message = None if entry.side == "-" else message_of(watch, ip, record.octets[watch.at:], entry)
    if message is not None and ip.protocol == TCP:
        watch.segment = read_tcp(message)
    compared = False
    if entry.era is not None and watch.segment is not None:
        compared = follow_segment(watch, entry, ip, (frames, written), origin or watch.segment)
    elif entry.side == "in" and any(brings(segment_of(watch, frame)) for frame in frames
                                    if read_ipv4(frame[watch.at:]).protocol == TCP):
        fault(watch, "brought", "record %d has no era, and its frame has octets or a FIN" % entry.number)
    if "T_CLASH" in entry.rules and not compared:
        fault(watch, "clashes", "record %d names T_CLASH, and none of its octets is compared" % entry.number)
    for ended in entry.ended:
        watch.eras[ended.era].ended = ended.reason


def brings(segment):
    return segment.payload != b"" or segment.flags & FIN != 0


def segment_of(watch, frame):
    packet = frame[watch.at:]
    return read_tcp(packet[read_ipv4(packet).header:])


# Datagrams

def message_of(watch, ip, packet, entry):
    """What follows the IPv4 header of the packet, or of the datagram that it completes; None if
    there is none.
    """
    payload = packet[ip.header:ip.total]
    if not ip.mf and ip.offset == 0:
        return payload
    key, rule = (ip.src, ip.dst, ip.protocol, ip.ident), entry.rules[0] if entry.rules else None
    if rule in BEFORE_F_CLASH:
        if rule == "F_END":
            watch.held.pop(key, None)
        return None
    held = octets_of(watch.held.get(key, []))
    differs = any(held.get(ip.offset + i, octet) != octet for i, octet in enumerate(payload))
    watch.counts["fragments"] += 1
    watch.counts["fragments that differ"] += differs
    if differs != (rule == "F_CLASH"):
        fault(watch, "clashes",
              "record %d %s a fragment that is held"
              % (entry.number, "differs from" if differs else "names F_CLASH and agrees with"))
    fragment = SimpleNamespace(now=watch.now, offset=ip.offset, payload=payload)
    if rule == "F_HELD":
        watch.held.setdefault(key, []).append(fragment)
    elif rule not in ("F_MANY", "F_ROOM"):
        octets = octets_of(watch.held.pop(key, []) + [fragment])
        return None if rule == "F_CLASH" else bytes(octets.get(offset, 0) for offset in range(max(octets) + 1))
    return None


def octets_of(fragments):
    """From offset to octet; the octet of the first fragment counts."""
    octets = {}
    for fragment in fragments:
        for i, octet in enumerate(fragment.payload):
            octets.setdefault(fragment.offset + i, octet)
    return octets


# Eras

def new_era(watch, entry, ip, segment):
    """`first` is the stream; `meant` has the octets of all forwarded records, `frames` what
    receivers get.
    """
    key = (ip.src, segment.sport, ip.dst, segment.dport)
    key = key if entry.side == "in" else key[2:] + key[:2]
    watch.eras[entry.era] = SimpleNamespace(number=entry.era, key=key, syn=segment.flags & SYN != 0, base=None,
                                            acked=0, end=None, first={}, meant={},
                                            agrees=True, clashes=[], frames=[], is_written={}, ended=None)


def follow_segment(watch, entry, ip, out, origin):
    """Takes a segment of an era. Returns whether its octets were compared with the stream."""
    frames, written = out
    if entry.era not in watch.eras:
        new_era(watch, entry, ip, watch.segment)
    era, forwarded = watch.eras[entry.era], entry.verdict in ("pass", "fix")
    if entry.side == "out":
        for frame in frames if forwarded else []:
            add_outward(era, segment_of(watch, frame))
        return False
    own, compared = SimpleNamespace(number=entry.number, octets={}, fin=None, origin=origin), False
    if forwarded and era.base is not None and not watch.segment.flags & (SYN | RST):
        read_own(era, watch.segment, own)
        compare(watch, era, entry, own)
        compared = True
    for frame in frames:
        add_inward(watch, era, segment_of(watch, frame), own)
    for frame in written:
        add_written(watch, era, frame)
    return compared


def add_outward(era, segment):
    if not segment.flags & ACK:
        return
    if era.base is None and not segment.flags & RST:
        era.base = segment.ack
    if era.base is not None:
        era.acked = max(era.acked, near(segment.ack - era.base, era.acked))


def read_own(era, segment, own):
    """The octets that a forwarded record brings, by their offsets, and the offset of its FIN."""
    offset = near(segment.seq - era.base, era.acked)
    own.octets = {offset + i: octet for i, octet in enumerate(segment.payload)}
    own.fin = offset + len(segment.payload) if segment.flags & FIN else None


def compare(watch, era, entry, own):
    """Compares a forwarded record with the stream so far, at and past what is acknowledged, and
    with all forwarded records before.
    """
    differs = any(offset >= era.acked and era.first.get(offset, octet) != octet for offset, octet in own.octets.items())
    named = "T_CLASH" in entry.rules
    watch.counts["segments"] += 1
    watch.counts["segments that differ"] += differs
    if differs != named:
        fault(watch, "clashes",
              "record %d %s the stream of era %d"
              % (entry.number, "differs from" if differs else "names T_CLASH and agrees with", era.number))
    for offset, octet in own.octets.items():
        era.agrees = era.meant.setdefault(offset, octet) == octet and era.agrees
    era.clashes += [entry.number] if named else []


def add_inward(watch, era, segment, own):
    """Takes a frame that goes inwards for the record whose octets are `own`."""
    if era.base is None and segment.flags & SYN:
        era.base = (segment.seq + 1) % 2**32
    if era.base is None:
        if brings(segment):
            fault(watch, "brought",
                  "era %d has no base, and the frame of record %d has octets or a FIN" % (era.number, own.number))
        return
    if segment.flags & SYN and segment.seq != (era.base - 1) % 2**32:
        fault(watch, "streams", "record %d has a SYN of another stream" % own.number)
    offset = near(segment.seq - era.base, era.acked)
    for i, octet in enumerate(segment.payload):
        add_octet(watch, era, offset + i, octet, (segment.seq + i, own))
    if segment.flags & FIN:
        add_fin(watch, era, own, offset + len(segment.payload))


def add_octet(watch, era, offset, octet, source):
    """Takes an octet of a frame; it is the stream's if it is the first one at this offset."""
    number, own = source
    if offset in era.first:
        if era.first[offset] != octet:
            fault(watch, "streams",
                  "record %d has another octet at offset %d of era %d" % (own.number, offset, era.number))
        return
    era.first[offset], era.is_written[offset] = octet, False
    watch.counts["octets"] += 1
    if own.octets.get(offset) != octet or octet_at(own.origin, number) != octet:
        fault(watch, "brought",
              "no record brought octet %d of era %d, written for record %d" % (offset, era.number, own.number))


def add_fin(watch, era, own, offset):
    if era.end is None:
        era.end = offset
        watch.counts["ends"] += 1
        number = own.origin.seq + len(own.origin.payload) if own.origin.flags & FIN else None
        if own.fin != offset or number is None or (number - era.base - offset) % 2**32 != 0:
            fault(watch, "brought",
                  "no record brought the end of era %d, written for record %d" % (era.number, own.number))
    if era.end != offset:
        fault(watch, "streams", "record %d has another end of era %d" % (own.number, era.number))


def octet_at(segment, number):
    """The octet that a segment has at a sequence number, or None."""
    index = (number - segment.seq) % 2**32
    return segment.payload[index] if index < len(segment.payload) else None


def add_written(watch, era, frame):
    """Takes a frame as receivers get it: with --mtu it may be a part of a longer one."""
    segment = segment_of(watch, frame)
    if era.base is None:
        return
    offset = near(segment.seq - era.base, era.acked)
    after = offset + len(segment.payload)
    ends = [offset, after - 1] if segment.payload else []
    era.frames.append(SimpleNamespace(packet=frame[watch.at:], offsets=ends + ([after] if segment.flags & FIN else [])))
    for i, octet in enumerate(segment.payload):
        if era.first.get(offset + i) != octet:
            fault(watch, "streams",
                  "what is written has another octet at offset %d of era %d" % (offset + i, era.number))
        era.is_written[offset + i] = True


# Receivers

def hear(era, policy, start, schedule):
    """A receiver after these frames, of which those are left out that do not reach it in time."""
    stream = open_stream(policy, era.base, start)
    for frame in schedule:
        following = start + len(stream.octets)
        if all(-HALF <= offset - following < HALF for offset in frame.offsets):
            take(stream, frame.packet)
    return stream


def schedule_of(rng, frames):
    """Some of the frames: as they were written, in reverse, twice, or in any order with repeats and
    omissions.
    """
    choice = rng.randrange(5)
    if choice < 3:
        return [frames, frames[::-1], frames + frames][choice]
    some = [frame for frame in frames for _ in range(rng.choice([0, 1, 1, 1, 2]))]
    rng.shuffle(some)
    return some


def starts_of(rng, era):
    """Offsets in the stream, before it and past it, and those at which something ends."""
    low, high = min(era.first, default=0), max(era.first, default=0) + 1
    inside = [rng.randint(low, high), rng.choice(sorted(era.first) or [0])]
    edges = [0, era.acked, era.acked - 1, high, era.acked if era.end is None else era.end]
    return (inside
            + [rng.choice(edges),
               rng.choice([low - 1, low - rng.randrange(2000), high + 1, high + rng.randrange(2000), low + HALF,
                           high - 2**32])])


def receivers_of(rng, era):
    return [hear(era, rng.choice(POLICIES), start, schedule_of(rng, era.frames)) for start in starts_of(rng, era)
            for _ in range(3)]


def read_streams(rng, watch):
    """Compares what receivers read with the stream of their era, and with each other."""
    for era in watch.eras.values():
        if era.base is None:
            continue
        missing = [offset for offset, is_written in era.is_written.items() if not is_written]
        if missing:
            fault(watch, "streams", "octet %d of era %d is in a frame, and is not written" % (missing[0], era.number))
        seen, ends = {}, {None if era.end is None else era.end}
        for stream in receivers_of(rng, era):
            watch.counts["receivers"] += 1
            watch.counts["octets read"] += len(stream.octets)
            following = stream.start + len(stream.octets)
            ends |= {following} if stream.ended else set()
            wrong = [stream.start + i for i, octet in enumerate(stream.octets)
                     if era.first.get(stream.start + i) != octet or seen.setdefault(stream.start + i, octet) != octet]
            if wrong:
                fault(watch, "streams",
                      "a receiver from offset %d of era %d reads another octet at %d"
                      % (stream.start, era.number, wrong[0]))
            if era.end is not None and stream.octets and following > era.end:
                fault(watch, "streams",
                      "a receiver from offset %d of era %d reads past the end" % (stream.start, era.number))
        if len(ends) > 1:
            fault(watch, "streams", "receivers of era %d end at different offsets" % era.number)


def read_agreeing(watch):
    """An era whose forwarded records have the same octet at the same offset has no T_CLASH."""
    for era in watch.eras.values():
        watch.counts["eras"] += 1
        watch.counts["agreeing eras"] += era.agrees and era.meant != {}
        if era.agrees and era.clashes:
            fault(watch, "agreeing",
                  "the records of era %d agree, and record %d names T_CLASH" % (era.number, era.clashes[0]))


# The recorded host

def pair_of(watch, record):
    """Source and destination of a record with a readable IPv4 header, or None."""
    packet = record.octets[watch.at:]
    if watch.ethernet and u16(record.octets, 12) != 0x0800 or len(packet) < 20 or read_ipv4(packet).version != 4:
        return None
    return read_ipv4(packet).src, read_ipv4(packet).dst


def is_inward(watch, side, pair):
    return pair is not None and side_of(watch.settings, side, *pair) == "in"


def read_recorded(watch):
    """Of all packets, and of each pair of addresses. It is a law on one engine without --mtu."""
    settings = watch.settings
    if settings.both or settings.mtu is not None:
        return
    others = {pair_of(watch, record) for record, entry, _ in watch.steps if entry.side in ("in", "-")
              and entry.verdict != "pass"}
    came, went = [], []
    for record, _, written in watch.steps:
        came += ([(pair_of(watch, record), record.octets)] if is_inward(watch, record.side, pair_of(watch, record))
                 else [])
        frames = [SimpleNamespace(octets=frame) for frame in written]
        went += [(pair_of(watch, frame), frame.octets) for frame in frames
                 if is_inward(watch, record.side, pair_of(watch, frame))]
    if not others and came:
        watch.counts["recorded hosts"] += 1
        if came != went:
            fault(watch, "recorded", "every inbound line is `pass`, and the inbound packets are not those written")
    for pair in {pair for pair, _ in came} if None not in others else ():
        if pair not in others:
            watch.counts["recorded pairs"] += 1
            if [one for one in came if one[0] == pair] != [one for one in went if one[0] == pair]:
                fault(watch, "recorded",
                      "every inbound line of a pair of addresses is `pass`, and its packets are not those written")


# Two eras of one four-tuple

def successors(watch):
    """Pairs of eras of one four-tuple, of which the first was idle or evicted and the next began
    without a SYN.
    """
    last = {}
    for era in sorted(watch.eras.values(), key=lambda era: era.number):
        before = last.get(era.key)
        if (before is not None and before.ended in ("idle", "evicted") and not era.syn
                and before.base is not None and era.base is not None):
            yield before, era
        last[era.key] = era


def is_open(one, two):
    """What the first era lacks of an end after which nothing that was read is written again."""
    lacks = {"unacknowledged octets"} if any(offset >= one.acked for offset in one.first) else set()
    lacks |= {"an open FIN"} if one.end is not None and one.acked <= one.end else set()
    return lacks | ({"an earlier acknowledgment"} if near(two.base - one.base - one.acked, 0) < 0 else set())


def numbers_read(one, stream):
    """The sequence numbers of the octets, and of the FIN, that a receiver has read."""
    return {(one.base + stream.start + i) % 2**32 for i in range(len(stream.octets) + stream.ended)}


def numbers_written(era):
    return {(era.base + offset) % 2**32 for offset in era.first}


def comes_round(one, two, stream):
    """The numbers of the second era go so far past those of the first that they repeat."""
    past = near(two.base - one.base - one.acked, 0) + max(two.first, default=0) + 1
    return past + one.acked - stream.start > 2**32


def read_twice(rng, one, two):
    """Whether an octet that is written in the second era is at a number which a receiver, at or
    past what was acknowledged, has read in the first.
    """
    written = numbers_written(two)
    run = one.acked
    while run - 1 in one.first:
        run -= 1
    streams = receivers_of(rng, one) + [hear(one, "First", run, one.frames), hear(one, "First", 0, one.frames)]
    streams = [stream for stream in streams if stream.start + len(stream.octets) >= one.acked
               and not comes_round(one, two, stream)]
    return any(written & numbers_read(one, stream) for stream in streams)


def read_successors(rng, watch):
    for one, two in successors(watch):
        watch.counts["successors"] += 1
        if is_open(one, two):
            continue
        watch.counts["successors of quiet eras"] += bool(one.first and two.first)
        if read_twice(rng, one, two):
            fault(watch, "successors", "era %d writes at a number that was read in era %d" % (two.number, one.number))


def faults_of(rng, watch):
    """All faults of a run that was followed to its end."""
    read_streams(rng, watch)
    read_agreeing(watch)
    read_recorded(watch)
    read_successors(rng, watch)
    return watch.faults
