"""What the headers of a frame say, and how a written frame differs from its record."""

from types import SimpleNamespace

from model.capture import ETHERNET
from model.formats import ACK, CWR, ECE, FIN, ICMP, PSH, RST, SYN, TCP, UDP, URG, read_ipv4, read_tcp, read_udp, u16

# The fields in the order in which they are named.
FIELDS = """
link version header_length type_of_service total_length identification reserved_bit dont_fragment more_fragments
fragment_offset ttl protocol header_checksum source destination ip_options source_port destination_port sequence
acknowledgment data_offset reserved flags window checksum urgent_pointer tcp_options udp_length payload trailer
""".split()

HEX = ("link", "ip_options", "tcp_options", "trailer")

CHECKSUMS = ("header_checksum", "checksum")

ADDRESSES = ("source", "destination")

LETTERS = [("S", SYN), ("F", FIN), ("R", RST), ("P", PSH), ("A", ACK), ("U", URG), ("E", ECE), ("C", CWR)]

# The frames that are no form of a record; these words are used in place of a field's name.
MADE = ("probe", "datagram")

PROTOCOLS = {ICMP: "icmp", TCP: "tcp", UDP: "udp"}

ARP = 0x0806


# The fields of a frame: every octet of it is in one of them, whatever the frame is.

def link_of(link, frame):
    """The octets before the packet, and the packet."""
    at = 14 if link == ETHERNET else 0
    return frame[:at], frame[at:]


def has_ipv4(link, frame):
    if link == ETHERNET and (len(frame) < 14 or u16(frame, 12) != 0x0800):
        return False
    packet = link_of(link, frame)[1]
    ip = read_ipv4(packet)
    return len(packet) >= 20 and ip.version == 4 and 20 <= ip.header <= len(packet)


def message_end(packet):
    """Where the message ends: at the total length, where that is possible."""
    ip = read_ipv4(packet)
    return ip.total if ip.header <= ip.total <= len(packet) else len(packet)


def fields_of(link, frame):
    """The value of each field that the frame has; the payload is always there."""
    before, packet = link_of(link, frame)
    fields = {"link": before, "payload": packet}
    if has_ipv4(link, frame):
        ip = read_ipv4(packet)
        message, trailer = packet[ip.header:message_end(packet)], packet[message_end(packet):]
        fields.update(ipv4_fields(packet), trailer=trailer, payload=message)
        if ip.offset == 0:
            fields.update(message_fields(ip.protocol, message))
    return {name: fields[name] for name in FIELDS if name == "payload" or fields.get(name, b"") != b""}


def ipv4_fields(packet):
    ip = read_ipv4(packet)
    return {
        "version": ip.version, "header_length": ip.header, "type_of_service": ip.tos, "total_length": ip.total,
        "identification": ip.ident, "reserved_bit": int(ip.reserved), "dont_fragment": int(ip.df),
        "more_fragments": int(ip.mf), "fragment_offset": ip.offset, "ttl": ip.ttl, "protocol": ip.protocol,
        "header_checksum": u16(packet, 10), "source": ip.src, "destination": ip.dst, "ip_options": packet[20:ip.header],
    }


def message_fields(protocol, message):
    """The fields of the TCP or UDP header, where it stands whole."""
    if protocol == TCP and 20 <= read_tcp(message).header <= len(message):
        tcp = read_tcp(message)
        return {
            "source_port": tcp.sport, "destination_port": tcp.dport, "sequence": tcp.seq, "acknowledgment": tcp.ack,
            "data_offset": tcp.header, "reserved": tcp.reserved, "flags": tcp.flags, "window": tcp.window,
            "checksum": u16(message, 16), "urgent_pointer": tcp.urgent, "tcp_options": tcp.options,
            "payload": tcp.payload,
        }
    if protocol == UDP and len(message) >= 8:
        udp = read_udp(message)
        return {"source_port": udp.sport, "destination_port": udp.dport, "checksum": udp.sum, "udp_length": udp.length,
                "payload": message[8:]}
    return {}


def flow_of(link, frame):
    """From where to where, and what; None where no IPv4 header can be read, and in it each value
    whose header cannot be read."""
    fields = fields_of(link, frame)
    if "version" not in fields:
        return None
    kind, code = icmp_of(fields)
    return SimpleNamespace(
        src=fields["source"], dst=fields["destination"], protocol=fields["protocol"],
        sport=fields.get("source_port"), dport=fields.get("destination_port"),
        flags=fields.get("flags"), seq=fields.get("sequence"), ack=fields.get("acknowledgment"),
        window=fields.get("window"),
        ident=fields["identification"], offset=fields["fragment_offset"], more=fields["more_fragments"] == 1,
        kind=kind, code=code,
    )


def icmp_of(fields):
    """Type and code of an ICMP header, which has 8 octets and is in the first fragment alone."""
    if fields["protocol"] != ICMP or fields["fragment_offset"] != 0 or len(fields["payload"]) < 8:
        return None, None
    return fields["payload"][0], fields["payload"][1]


def ethertype_of(link, frame):
    """The type in the header of the link, of a frame of which no IPv4 header can be read; None
    where it is not there."""
    if link != ETHERNET or len(frame) < 14 or has_ipv4(link, frame):
        return None
    return u16(frame, 12)


def length_of(link, frame):
    return len(fields_of(link, frame)["payload"])


# The texts of values

def address_text(number):
    return ".".join(str(number >> shift & 255) for shift in (24, 16, 8, 0))


def flags_text(flags):
    return "".join(letter for letter, flag in LETTERS if flags & flag) or "none"


def protocol_text(protocol):
    return PROTOCOLS.get(protocol, str(protocol))


def ethertype_text(kind):
    return "arp" if kind == ARP else "0x%04x" % kind


def value_text(field, value):
    """The text of a field's value, or None where the frame has none."""
    if value is None:
        return None
    if field in HEX:
        return value.hex()
    if field in CHECKSUMS:
        return "0x%04x" % value
    if field in ADDRESSES:
        return address_text(value)
    return flags_text(value) if field == "flags" else str(value)


def is_decimal(field):
    """Whether the text of each value of this field is a decimal number."""
    return field not in (*HEX, *CHECKSUMS, *ADDRESSES, "flags")


# What differs

def changes_of(link, record, frame, number):
    """Each field in which the frame with this number differs from its record."""
    ours, theirs = fields_of(link, record), fields_of(link, frame)
    changes = []
    for field in FIELDS:
        if field == "payload" and ours[field] != theirs[field]:
            changes.append(payload_change(ours, theirs, number))
        elif ours.get(field) != theirs.get(field):
            changes.append(SimpleNamespace(frame=number, field=field, before=ours.get(field), after=theirs.get(field)))
    return changes


def made_change(link, frame, number, kind):
    """The one change of a frame that norm made itself: which kind it is, and what its headers
    say."""
    return SimpleNamespace(frame=number, field=kind, flow=flow_of(link, frame), length=length_of(link, frame))


def cut_in_front(ours, theirs):
    """How many octets of a segment's payload are before the frame's sequence number."""
    if "sequence" not in ours or "sequence" not in theirs:
        return 0
    front = (theirs["sequence"] - ours["sequence"]) % 2**32
    return front if front <= len(ours["payload"]) else 0


def payload_change(ours, theirs, number):
    """The octets of the record that the frame lacks, in front and at the end; those that it has
    after the record's end; and those that differ."""
    front = cut_in_front(ours, theirs)
    left, written = ours["payload"][front:], theirs["payload"]
    return SimpleNamespace(
        frame=number, field="payload", front=ours["payload"][:front], end=left[len(written):],
        longer=written[len(left):],
        replaced=runs(left, written, front),
    )


def runs(left, written, front):
    """The longest runs of octets that differ, each with its offset in the record's payload; which
    record first sent them is not known here."""
    found = []
    for at, (one, other) in enumerate(zip(left, written), front):
        if one != other and found and found[-1].at + len(found[-1].before) == at:
            found[-1].before += bytes([one])
            found[-1].after += bytes([other])
        elif one != other:
            found.append(SimpleNamespace(at=at, before=bytes([one]), after=bytes([other]), first=None))
    return found
