"""Makes packets and captures: right ones, and wrong ones where a field is named."""

from model.formats import ACK, FIN, PSH, RST, SYN, TCP, UDP, URG, four, pseudo_sum, sum_for, two

LETTERS = {"S": SYN, "A": ACK, "P": PSH, "F": FIN, "R": RST, "U": URG}


def address(text):
    a, b, c, d = (int(part) for part in text.split("."))
    return ((a * 256 + b) * 256 + c) * 256 + d


OUTSIDE, INSIDE = address("198.51.100.7"), address("10.0.0.1")


def flags_of(letters):
    return sum(LETTERS[letter] for letter in letters)


def ipv4(src, dst, protocol, payload, ttl=64, ident=1, tos=0, reserved=False, df=False, mf=False, offset=0,
         options=b"", version=4, header=None, total=None, check=None):
    """`header` is in words, `offset` in octets; `check` in place of the right checksum."""
    words = 5 + len(options) // 4 if header is None else header
    length = 20 + len(options) + len(payload) if total is None else total
    marks = (32768 if reserved else 0) + (16384 if df else 0) + (8192 if mf else 0) + offset // 8
    head = bytes([version * 16 + words, tos]) + two(length) + two(ident) + two(marks)
    head += bytes([ttl, protocol, 0, 0]) + four(src) + four(dst) + options
    right = sum_for(head) if check is None else check
    return head[:10] + two(right) + head[12:] + payload


def tcp(src, dst, sport, dport, seq, ack, flags, payload=b"", window=8192, options=b"", reserved=0, urgent=0,
        header=None, check=None):
    """`header` is in words; `check` in place of the right checksum."""
    words = 5 + len(options) // 4 if header is None else header
    octets = two(sport) + two(dport) + four(seq) + four(ack) + bytes([words * 16 + reserved, flags])
    octets += two(window) + b"\0\0" + two(urgent) + options + payload
    right = sum_for(octets, pseudo_sum(src, dst, TCP, len(octets))) if check is None else check
    return octets[:16] + two(right) + octets[18:]


def udp(src, dst, sport, dport, payload, length=None, check=None):
    octets = two(sport) + two(dport) + two(8 + len(payload) if length is None else length) + b"\0\0" + payload
    right = sum_for(octets, pseudo_sum(src, dst, UDP, len(octets))) or 65535
    return octets[:6] + two(right if check is None else check) + octets[8:]


def icmp(kind, code, rest, check=None):
    octets = bytes([kind, code, 0, 0]) + rest
    right = sum_for(octets) if check is None else check
    return octets[:2] + two(right) + octets[4:]


def inward(protocol, payload, **fields):
    return ipv4(OUTSIDE, INSIDE, protocol, payload, **fields)


def outward(protocol, payload, **fields):
    return ipv4(INSIDE, OUTSIDE, protocol, payload, **fields)


IP_FIELDS = ("ttl", "ident", "tos", "ip_reserved", "df", "mf", "offset", "ip_options")


def segment(text, outside_port=40000, inside_port=80, **fields):
    """A packet from a line such as `> PA 1000,5001 abcd`: side, flags, numbers and payload."""
    side, letters, numbers, payload = (text.split(" ", 3) + [""])[:4]
    seq, _, ack = numbers.partition(",")
    src, dst, sport, dport = OUTSIDE, INSIDE, outside_port, inside_port
    if side == "<":
        src, dst, sport, dport = dst, src, dport, sport
    ip_fields = {name.replace("ip_", ""): fields.pop(name) for name in IP_FIELDS if name in fields}
    octets = fields.pop("payload", payload.encode())
    message = tcp(src, dst, sport, dport, int(seq), int(ack or 0), flags_of(letters), octets, **fields)
    return ipv4(src, dst, TCP, message, **ip_fields)


def opening(window=8192):
    """The three records that open a connection with base 1000."""
    return [segment("> S 999"), segment("< SA 5000,1000", window=window), segment("> A 1000,5001")]


def icmp_error(kind, quoted_src, quoted_dst, protocol, sport, dport):
    quote = ipv4(quoted_src, quoted_dst, protocol, two(sport) + two(dport) + b"\0\0\0\0")
    return icmp(kind, 0, b"\0\0\0\0" + quote)


def head(order="little", nano=False, link=101, magic=None, version=(2, 4), rest=(0, 0, 262144)):
    number = 0xa1b23c4d if nano else 0xa1b2c3d4
    start = number.to_bytes(4, order) if magic is None else magic
    numbers = [(version[0], 2), (version[1], 2)] + [(value, 4) for value in rest] + [(link, 4)]
    return start + b"".join(value.to_bytes(size, order) for value, size in numbers)


def record(octets, seconds=0, fraction=0, original=None, captured=None, order="little"):
    lengths = (len(octets) if captured is None else captured, len(octets) if original is None else original)
    return b"".join(value.to_bytes(4, order) for value in (seconds, fraction) + lengths) + octets


def capture_of(packets, link=101):
    """A little-endian capture, of raw IP by default; a pair is a packet with its seconds."""
    pairs = [packet if isinstance(packet, tuple) else (packet, 0) for packet in packets]
    return head(link=link) + b"".join(record(octets, seconds) for octets, seconds in pairs)
