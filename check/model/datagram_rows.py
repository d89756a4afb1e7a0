"""The rules on UDP and ICMP messages. `case.message` is what follows the IPv4 header, put together
from its pieces."""

from model.formats import ICMP, UDP, pseudo_sum, read_quoted, read_udp, sum_right, u8
from model.words import is_trusted

KNOWN_TYPES = (0, 3, 8, 11, 12, 13, 14)

ERRORS = (3, 11, 12)


def udp_sum_wrong(case):
    """The checksum is not 0 and not right."""
    if case.sent.protocol != UDP:
        return False
    pseudo = pseudo_sum(case.sent.src, case.sent.dst, UDP, len(case.message))
    return read_udp(case.message).sum != 0 and not sum_right(case.message, pseudo)


def left_to_the_card(case):
    return case.outbound and case.settings.offload


def U_SHORT(case):
    return case.sent.protocol == UDP and len(case.message) < 8


def U_LEN(case):
    return case.sent.protocol == UDP and read_udp(case.message).length != len(case.message)


def U_SUM(case):
    return udp_sum_wrong(case) and not left_to_the_card(case)


def M_SHORT(case):
    return case.sent.protocol == ICMP and len(case.message) < 8


def M_SUM(case):
    return case.sent.protocol == ICMP and not sum_right(case.message)


def M_TYPE(case):
    return case.sent.protocol == ICMP and u8(case.message, 0) not in KNOWN_TYPES


def M_QUOTE(case):
    if case.sent.protocol != ICMP or not case.inbound or u8(case.message, 0) not in ERRORS:
        return False
    quoted = read_quoted(case.message)
    if quoted is None:
        return True
    if not is_trusted(case.settings, quoted.src) or is_trusted(case.settings, quoted.dst):
        return True
    key = (quoted.dst, quoted.dport, quoted.src, quoted.sport)
    return quoted.protocol == 6 and not case.is_live(key)


def U_SUM_OUT(case):
    return udp_sum_wrong(case) and left_to_the_card(case)


DATAGRAM_DROPS = [U_SHORT, U_LEN, U_SUM, M_SHORT, M_SUM, M_TYPE, M_QUOTE]

DATAGRAM_FIXES = [U_SUM_OUT]
