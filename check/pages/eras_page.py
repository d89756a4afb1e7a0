"""The part of the page on evasions about two eras of one connection. Reads examples/eras.txt and
writes a section for each."""

import copy
import os

from pages.evasion_page import BASE, DESCRIPTIONS, columns, first_connection, read_descriptions, shown, wrapped
from pages.monitor_page import frames_of, timed_line
from model.receivers import POLICIES, all_agree, deliver

ERAS = os.path.join(os.path.dirname(DESCRIPTIONS), "eras.txt")

HEAD = """## Two eras of one connection

norm ends an era that is silent for longer than `--idle` says, or whose slot another needs
(`--flows`). If the connection goes on, another era begins. The promises are said of one era: in
the next one the same octets may pass again otherwise. [PROVED](PROVED.md) has the premises under
which two eras are read as one. Among them are these: all octets that were written inwards in the
first are acknowledged; it has no FIN; the base of the second is not before what was acknowledged.
Each part below lacks one of them, and receivers disagree. Under the standard options there is one
era, and all agree.

A reset by the host ends its era at once, and what follows is another era under any options. A host
that has sent its SYN ACK answers octets that acknowledge what it never sent with a reset, drops
them, and waits on (RFC 9293 section 3.10.7.4). The attacker then sends other octets:

    > PA 1000,4001 evil    3 in pass 1 @1
    < R 4001               4 out pass 1 @1 -1:reset:4
    > A 1000,5001          5 in fix 1 C_PROBE
    < A 5001,1000          6 out pass 1 @2 +2
    > PA 1000,5001 good    7 in pass 1 @2

The host reads `good`; a monitor that does not look at acknowledgments has read `evil` before. The
report has an era that ends by `reset` before an octet of it was acknowledged, and a `C_PROBE` of
its four-tuple. A monitor checks acknowledgments within the handshake, as hosts do.
"""


def read_eras():
    """The descriptions of two eras."""
    with open(ERAS, encoding="ascii") as file:
        return read_descriptions(file.read())


def standard(case):
    """The case under the standard options."""
    other = copy.copy(case)
    other.prose = dict(case.prose, options="")
    return other


def streams_of(case, outcome):
    """For each host the streams by policy of what was written of the first connection."""
    packets = [packet for some in frames_of(case, *outcome) for packet in some]
    return [deliver(host.read(first_connection(packets)), BASE, 0) for host in case.hosts]


def rows(case, outcome, standard_outcome):
    """Receivers that deliver the same: which they are, what they deliver, and what under the
    standard options."""
    found = {}
    for host, some, other in zip(case.hosts, streams_of(case, outcome), streams_of(case, standard_outcome)):
        for policy, one, two in zip(POLICIES, some, other):
            found.setdefault((host.label, shown(one), shown(two)), []).append(policy)
    return ["%s, %s (%s)" % (label if len(policies) == len(POLICIES) else "%s by %s"
                             % (label, " or ".join(policies)), one, two)
            for (label, one, two), policies in found.items()]


def check_streams(case, outcome, standard_outcome):
    """Receivers disagree, and agree under the standard options."""
    if all_agree(sum(streams_of(case, outcome), [])):
        raise ValueError("all receivers agree")
    if not all_agree(sum(streams_of(case, standard_outcome), [])):
        raise ValueError("receivers disagree under the standard options")


def section(case, outcome, standard_outcome):
    check_streams(case, outcome, standard_outcome)
    told = ("Delivered of this (and under the standard options): %s. %s"
            % ("; ".join(rows(case, outcome, standard_outcome)), case.prose["answer"]))
    drawn = columns(case, outcome[0], frames_of(case, *outcome), timed_line)
    said = case.prose["case"] + " (`%s`, `%s`)" % (case.name, case.prose["options"])
    return "\n\n".join(["### " + case.title, wrapped(said), drawn, wrapped(told)]) + "\n"


def eras_part(outcomes):
    """This part of the page, from triples of a description and its outcomes, each the report and
    the octets written."""
    parts = [HEAD]
    for case, outcome, standard_outcome in outcomes:
        try:
            parts.append(section(case, outcome, standard_outcome))
        except ValueError as fault:
            raise ValueError("%s: %s" % (case.name, fault)) from fault
    return "\n".join(parts)
