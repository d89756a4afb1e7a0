"""The rules on the header of a TCP segment. `case.tcp` has its fields."""

from model.datagram_rows import left_to_the_card
from model.formats import (RST, SYN, TCP, URG, legal_flags, options_change, pseudo_sum, read_options,
                                sum_right)


def tcp_sum_wrong(case):
    if case.sent.protocol != TCP:
        return False
    return not sum_right(case.message, pseudo_sum(case.sent.src, case.sent.dst, TCP, len(case.message)))


def T_SHORT(case):
    return case.sent.protocol == TCP and len(case.message) < 20


def T_HLEN(case):
    return case.sent.protocol == TCP and (case.tcp.header < 20 or case.tcp.header > len(case.message))


def T_SUM(case):
    return tcp_sum_wrong(case) and not left_to_the_card(case)


def T_FLAGS(case):
    return case.sent.protocol == TCP and not legal_flags(case.tcp.flags)


def T_OPT_BAD(case):
    return case.sent.protocol == TCP and read_options(case.tcp.options).bad


def is_inbound_tcp(case):
    return case.sent.protocol == TCP and case.inbound


def T_SUM_OUT(case):
    return tcp_sum_wrong(case) and left_to_the_card(case)


def T_RES(case):
    return is_inbound_tcp(case) and case.tcp.reserved != 0


def T_URG(case):
    return is_inbound_tcp(case) and (case.tcp.flags & URG != 0 or case.tcp.urgent != 0)


def T_OPT(case):
    return is_inbound_tcp(case) and options_change(case.tcp.options, case.tcp.flags & SYN != 0)


def T_STRIP(case):
    return is_inbound_tcp(case) and case.tcp.flags & (SYN | RST) != 0 and len(case.tcp.payload) > 0


SEGMENT_DROPS = [T_SHORT, T_HLEN, T_SUM, T_FLAGS, T_OPT_BAD]

SEGMENT_FIXES = [T_SUM_OUT, T_RES, T_URG, T_OPT, T_STRIP]
