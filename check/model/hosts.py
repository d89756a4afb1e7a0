"""Receivers that differ on packets that are not plain: what each leaves out or reads otherwise,
before octets come to their places.

Each takes the packets of one connection, in both directions and in order, and gives those that go
inwards as it reads them.
"""

from model.formats import (ACK, FIN, RST, SYN, TCP, URG, pseudo_sum, read_ipv4, read_tcp, sum_right,
                           write_ipv4, write_tcp)
from model.fragment_rows import datagram_key, is_fragment
from model.packets import INSIDE

# Two no-operations, and the kind and the length of the timestamps option.
TIMESTAMPS = bytes([1, 1, 8, 10])


def fields(packet):
    ip = read_ipv4(packet)
    return ip, read_tcp(packet[ip.header:])


def inward(packets):
    return [packet for packet in packets if read_ipv4(packet).dst == INSIDE]


def rewritten(packet, seq, flags, payload):
    ip, tcp = fields(packet)
    return write_ipv4(ip, ip.ttl, write_tcp(ip.src, ip.dst, tcp, seq, tcp.ack, flags, b"", payload))


def before(packets, flag):
    """The packets up to and with the first one that goes inwards with this flag."""
    read = []
    for packet in packets:
        read.append(packet)
        if fields(packet)[1].flags & flag:
            break
    return read


def joined(packets, keep):
    """The packets with one in place of the fragments that make it; `keep` puts an octet at its
    offset, where another may be."""
    read, held = [], {}
    for packet in packets:
        ip = read_ipv4(packet)
        if not is_fragment(ip):
            read.append(packet)
            continue
        octets, ends = held.setdefault(datagram_key(ip), ({}, []))
        for place, octet in enumerate(packet[ip.header:], ip.offset):
            keep(octets, place, octet)
        ends += [] if ip.mf else [ip.offset + len(packet) - ip.header]
        if ends and all(place in octets for place in range(ends[0])):
            del held[datagram_key(ip)]
            read.append(write_ipv4(ip, ip.ttl, bytes(octets[place] for place in range(ends[0]))))
    return inward(read)


def keeps_the_octet_of_the_first_fragment(packets):
    return joined(packets, dict.setdefault)


def keeps_the_octet_of_the_last_fragment(packets):
    return joined(packets, dict.__setitem__)


def every_packet(packets):
    """Looks at nothing but the fields."""
    return inward(packets)


def behind_a_router(packets):
    return [packet for packet in inward(packets) if read_ipv4(packet).ttl > 1]


def takes_the_urgent_octet_out(packets):
    """Where the octet before the pointer is the urgent one, and nothing follows the segment."""
    read = []
    for packet in inward(packets):
        tcp = fields(packet)[1]
        if tcp.flags & URG and 0 < tcp.urgent <= len(tcp.payload):
            packet = rewritten(packet, tcp.seq, tcp.flags, tcp.payload[:tcp.urgent - 1] + tcp.payload[tcp.urgent:])
        read.append(packet)
    return read


def stops_at_a_reset(packets):
    return before(inward(packets), RST)


def verifies_checksums(packets):
    def right(packet):
        ip = read_ipv4(packet)
        message = packet[ip.header:]
        return sum_right(message, pseudo_sum(ip.src, ip.dst, TCP, len(message)))
    return [packet for packet in inward(packets) if right(packet)]


def refuses_reserved_bits(packets):
    return [packet for packet in inward(packets) if fields(packet)[1].reserved == 0]


def keeps_octets_on_a_syn(packets):
    """They follow the SYN, which has its own number."""
    read = []
    for packet in inward(packets):
        tcp = fields(packet)[1]
        read.append(rewritten(packet, tcp.seq + 1, tcp.flags & ~SYN, tcp.payload) if tcp.flags & SYN else packet)
    return read


def leaves_octets_on_a_syn(packets):
    return [packet for packet in inward(packets) if not fields(packet)[1].flags & SYN]


def refuses_segments_without_ack(packets):
    """Drops a segment with neither SYN, RST nor ACK (RFC 9293 section 3.10.7.4)."""
    return [packet for packet in inward(packets) if fields(packet)[1].flags & (SYN | RST | ACK)]


def waits_for_its_answer(packets):
    """Drops what arrives between a SYN and the answer to it."""
    read, answered = [], False
    for packet in packets:
        ip, tcp = fields(packet)
        answered = answered or ip.dst != INSIDE
        if ip.dst == INSIDE and (answered or tcp.flags & SYN):
            read.append(packet)
    return read


def stops_at_a_fin(packets):
    return before(inward(packets), FIN)


def keeps_to_its_window(packets):
    """Leaves out what lies past all that it has offered; numbers do not come round here."""
    edge, read = 0, []
    for packet in packets:
        ip, tcp = fields(packet)
        if ip.dst != INSIDE:
            edge = max(edge, tcp.ack + tcp.window)
        elif tcp.seq + len(tcp.payload) <= edge or not tcp.payload:
            read.append(packet)
        elif tcp.seq < edge:
            read.append(rewritten(packet, tcp.seq, tcp.flags & ~FIN, tcp.payload[:edge - tcp.seq]))
    return read


def refuses_header_options(packets):
    return [packet for packet in inward(packets) if read_ipv4(packet).header == 20]


def refuses_older_timestamps(packets):
    """Drops a segment whose timestamp is below the last one (RFC 7323 section 5); numbers do not
    come round here."""
    newest, read = 0, []
    for packet in inward(packets):
        value = timestamp(packet)
        if value is None or value >= newest:
            newest = newest if value is None else value
            read.append(packet)
    return read


def timestamp(packet):
    """The value of the timestamps option, which two no-operations precede, or None."""
    ip = read_ipv4(packet)
    tcp = packet[ip.header:]
    options = tcp[20:tcp[12] // 16 * 4]
    return int.from_bytes(options[4:8], "big") if options[:4] == TIMESTAMPS else None


def refuses_acknowledgments_of_the_future(packets):
    """Drops a segment that acknowledges more than was sent (RFC 9293 section 3.10.7.4); numbers do
    not come round here."""
    sent, read = 0, []
    for packet in packets:
        ip, tcp = fields(packet)
        if ip.dst != INSIDE:
            sent = max(sent, tcp.seq + len(tcp.payload) + (1 if tcp.flags & (SYN | FIN) else 0))
        elif not tcp.flags & ACK or tcp.ack <= sent:
            read.append(packet)
    return read


def has_room_for_four_octets(packets):
    """Drops a segment that ends more than 4 octets past the next one; numbers do not come round
    here."""
    following, read = None, []
    for packet in inward(packets):
        tcp = fields(packet)[1]
        if tcp.flags & SYN:
            following = tcp.seq + 1
        end = tcp.seq + len(tcp.payload)
        if not tcp.payload or end <= following + 4:
            following = end if tcp.payload and tcp.seq <= following else following
            read.append(packet)
    return read


def reads_four_octets(packets):
    """Cuts off what lies past the fourth octet after the SYN; numbers do not come round here."""
    first, read = None, []
    for packet in inward(packets):
        tcp = fields(packet)[1]
        if tcp.flags & SYN:
            first = tcp.seq + 1
        read.append(rewritten(packet, tcp.seq, tcp.flags, tcp.payload[:max(0, first + 4 - tcp.seq)]) if tcp.payload
                    else packet)
    return read


def begins_again_at_a_syn(packets):
    """Reads from the last SYN on, which it takes for that of another stream."""
    read = inward(packets)
    syns = [k for k, packet in enumerate(read) if fields(packet)[1].flags & SYN]
    return read[syns[-1]:] if syns else read


def stops_at_the_fin_of_the_host(packets):
    read = []
    for packet in packets:
        ip, tcp = fields(packet)
        if ip.dst != INSIDE and tcp.flags & FIN:
            break
        read.append(packet)
    return inward(read)


def forgets_after_a_minute(packets):
    """Reads nothing after 60 seconds without a packet; a packet has its time in `second`."""
    read, last = [], 0
    for packet in packets:
        if packet.second - last > 60:
            break
        last = packet.second
        read.append(packet)
    return inward(read)


def loses_each_fin(packets):
    """A FIN does not reach it; nothing else is lost."""
    return [packet for packet in inward(packets) if not fields(packet)[1].flags & FIN]


def begins_at_second_100(packets):
    """Has forgotten what was before."""
    return [packet for packet in inward(packets) if packet.second >= 100]


READERS = {reader.__name__: reader for reader in (
    every_packet, behind_a_router, takes_the_urgent_octet_out, stops_at_a_reset, verifies_checksums,
    refuses_reserved_bits, keeps_octets_on_a_syn, leaves_octets_on_a_syn, refuses_segments_without_ack,
    waits_for_its_answer, stops_at_a_fin, keeps_to_its_window, refuses_header_options,
    keeps_the_octet_of_the_first_fragment, keeps_the_octet_of_the_last_fragment, refuses_older_timestamps,
    refuses_acknowledgments_of_the_future, has_room_for_four_octets, reads_four_octets, begins_again_at_a_syn,
    stops_at_the_fin_of_the_host, forgets_after_a_minute, loses_each_fin, begins_at_second_100)}
