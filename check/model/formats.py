"""The formats that the rules read: numbers, checksums, IPv4, options, UDP, ICMP and TCP.

Every reader is total: a number past the end of its octets is 0. So each rule can be asked of any
octets.
"""

from types import SimpleNamespace

CWR, ECE, URG, ACK, PSH, RST, SYN, FIN = 128, 64, 32, 16, 8, 4, 2, 1

ICMP, TCP, UDP = 1, 6, 17


def u8(octets, at):
    return octets[at] if 0 <= at < len(octets) else 0


def u16(octets, at):
    return u8(octets, at) * 256 + u8(octets, at + 1)


def u32(octets, at):
    return u16(octets, at) * 65536 + u16(octets, at + 2)


def two(number):
    return (number % 65536).to_bytes(2, "big")


def four(number):
    return (number % 2**32).to_bytes(4, "big")


# Checksums: a list of 16-bit words, the checksum among them, is right exactly where its sum is a
# positive multiple of 65,535 (RFC 1071). An odd last octet is the high octet of its word.

def words_total(octets):
    return sum(octets[0::2]) * 256 + sum(octets[1::2])


def sum_right(octets, extra=0):
    total = extra + words_total(octets)
    return total > 0 and total % 65535 == 0


def sum_for(octets, extra=0):
    """The checksum to write, over octets in which its field is 0."""
    total = extra + words_total(octets)
    if total > 0 and total % 65535 == 0:
        return 0
    return 65535 - total % 65535


def pseudo_sum(src, dst, protocol, length):
    return words_total(four(src) + four(dst) + bytes([0, protocol]) + two(length))


# IPv4 (RFC 791)

def read_ipv4(octets):
    flags = u16(octets, 6)
    return SimpleNamespace(
        version=u8(octets, 0) // 16,
        header=u8(octets, 0) % 16 * 4,
        tos=u8(octets, 1),
        total=u16(octets, 2),
        ident=u16(octets, 4),
        reserved=flags // 32768 == 1,
        df=flags // 16384 % 2 == 1,
        mf=flags // 8192 % 2 == 1,
        offset=flags % 8192 * 8,
        ttl=u8(octets, 8),
        protocol=u8(octets, 9),
        src=u32(octets, 12),
        dst=u32(octets, 16),
    )


def write_ipv4(ip, ttl, payload):
    """A packet with a header of 20 octets and the fields of `ip`, whole, with a right checksum."""
    head = bytes([0x45, ip.tos]) + two(20 + len(payload)) + two(ip.ident) + two(16384 if ip.df else 0)
    head += bytes([ttl, ip.protocol]) + b"\0\0" + four(ip.src) + four(ip.dst)
    return head[:10] + two(sum_for(head)) + head[12:] + payload


# Options of IPv4 and TCP have one form: 0 ends the list, 1 is a no-operation, and every other one
# has a length octet that counts the whole option.

def read_options(area):
    """The options before an end option, whether the list is well formed, and the octets after an
    end option."""
    options = []
    at = 0
    while at < len(area):
        kind = area[at]
        if kind == 0:
            return SimpleNamespace(options=options, bad=False, end=at, after=area[at + 1:])
        if kind == 1:
            options.append(SimpleNamespace(kind=1, at=at, octets=area[at:at + 1]))
            at += 1
            continue
        if at + 1 >= len(area) or area[at + 1] < 2 or at + area[at + 1] > len(area):
            return SimpleNamespace(options=options, bad=True, end=at, after=b"")
        options.append(SimpleNamespace(kind=kind, at=at, octets=area[at:at + area[at + 1]]))
        at += area[at + 1]
    return SimpleNamespace(options=options, bad=False, end=at, after=b"")


def has_kept_form(option, syn):
    kind, length = option.kind, len(option.octets)
    if kind == 1:
        return True
    if kind == 2:
        return syn and length == 4
    if kind == 3:
        return syn and length == 3
    if kind == 4:
        return syn and length == 2
    if kind == 5:
        return length in (10, 18, 26, 34)
    if kind == 8:
        return length == 10
    return False


def is_kept(option, options, syn):
    """A TCP option that stays: one of the listed forms and, but for kind 1, the first such one of
    its kind."""
    if not has_kept_form(option, syn):
        return False
    if option.kind == 1:
        return True
    same = [other for other in options if other.kind == option.kind and has_kept_form(other, syn)]
    return same[0].at == option.at


def options_change(area, syn):
    read = read_options(area)
    if any(not is_kept(option, read.options, syn) for option in read.options):
        return True
    return any(octet != 0 for octet in read.after)


def clean_options(area, syn):
    """Each option that is not kept becomes no-operations, and each octet after the end option
    becomes 0."""
    read = read_options(area)
    cleaned = b""
    for option in read.options:
        kept = is_kept(option, read.options, syn)
        cleaned += option.octets if kept else b"\1" * len(option.octets)
    return cleaned + b"\0" * (len(area) - len(cleaned))


def scale_of(area):
    """The shift, at most 14, of the first window scale option before an end option (RFC 7323)."""
    for option in read_options(area).options:
        if option.kind == 3 and len(option.octets) == 3:
            return min(option.octets[2], 14)
    return None


# UDP (RFC 768)

def read_udp(octets):
    return SimpleNamespace(sport=u16(octets, 0), dport=u16(octets, 2), length=u16(octets, 4), sum=u16(octets, 6))


# ICMP (RFC 792)

def read_quoted(message):
    """The connection that an ICMP error quotes from octet 8 on, or None."""
    quote = message[8:]
    header = u8(quote, 0) % 16 * 4
    if u8(quote, 0) // 16 != 4 or header < 20 or len(quote) < header + 8:
        return None
    return SimpleNamespace(src=u32(quote, 12), dst=u32(quote, 16), protocol=u8(quote, 9),
                           sport=u16(quote, header), dport=u16(quote, header + 2))


# TCP (RFC 9293)

def read_tcp(octets):
    header = u8(octets, 12) // 16 * 4
    return SimpleNamespace(
        sport=u16(octets, 0),
        dport=u16(octets, 2),
        seq=u32(octets, 4),
        ack=u32(octets, 8),
        header=header,
        reserved=u8(octets, 12) % 16,
        flags=u8(octets, 13),
        window=u16(octets, 14),
        urgent=u16(octets, 18),
        options=octets[20:header],
        payload=octets[header:],
    )


def write_tcp(src, dst, tcp, seq, ack, flags, options, payload):
    """A segment with reserved bits 0, urgent pointer 0 and a right checksum."""
    header = 20 + len(options)
    octets = two(tcp.sport) + two(tcp.dport) + four(seq) + four(ack)
    octets += bytes([header // 4 * 16, flags]) + two(tcp.window) + b"\0\0\0\0" + options + payload
    right = sum_for(octets, pseudo_sum(src, dst, TCP, len(octets)))
    return octets[:16] + two(right) + octets[18:]


def legal_flags(flags):
    return flags & (SYN | FIN | RST | ACK) in (SYN, SYN | ACK, ACK, FIN | ACK, RST, RST | ACK)


# Plain packets: what every receiver reads alike.

def is_plain(hops, octets):
    ip = read_ipv4(octets)
    if len(octets) < 20 or ip.version != 4 or ip.header != 20 or ip.total != len(octets):
        return False
    if ip.reserved or ip.mf or ip.offset != 0 or ip.ttl <= hops or not sum_right(octets[:20]):
        return False
    payload = octets[20:]
    pseudo = pseudo_sum(ip.src, ip.dst, ip.protocol, len(payload))
    if ip.protocol == ICMP:
        return len(payload) >= 8 and sum_right(payload)
    if ip.protocol == UDP:
        udp = read_udp(payload)
        return len(payload) >= 8 and udp.length == len(payload) and (udp.sum == 0 or sum_right(payload, pseudo))
    if ip.protocol == TCP:
        return is_plain_tcp(payload, pseudo)
    return False


def is_plain_tcp(octets, pseudo):
    tcp = read_tcp(octets)
    if len(octets) < 20 or tcp.header < 20 or tcp.header > len(octets) or not sum_right(octets, pseudo):
        return False
    if not legal_flags(tcp.flags) or tcp.reserved != 0 or tcp.flags & URG or tcp.urgent != 0:
        return False
    if read_options(tcp.options).bad or options_change(tcp.options, bool(tcp.flags & SYN)):
        return False
    return not (tcp.flags & (SYN | RST) and tcp.payload)
