"""The files check/receivers/measurements/hosts.txt and rivals.txt: what was read, with the versions
and the date, in lines of fields with ` | ` between them."""

import os
import platform
import time

from model.receivers import agree

FOLDER = os.path.join(os.path.dirname(os.path.abspath(__file__)), "measurements")

BETWEEN = " | "


def write(name, lines):
    os.makedirs(FOLDER, exist_ok=True)
    with open(os.path.join(FOLDER, name), "w", encoding="ascii") as file:
        file.write("".join(BETWEEN.join(str(field) for field in line) + "\n" for line in lines))


def read(name):
    """The fields of each line by the line's first field; nothing where the file is missing."""
    path, found = os.path.join(FOLDER, name), {}
    if os.path.exists(path):
        with open(path, encoding="ascii") as file:
            for line in file:
                kind, *fields = line.rstrip("\n").split(BETWEEN)
                found.setdefault(kind, []).append(fields)
    return found


def system(versions):
    release = platform.release().split("-")[0]
    return ("system", ", ".join(["Linux " + release] + ["%s %s" % pair for pair in versions.items()]),
            time.strftime("%Y-%m-%d", time.gmtime()))


def shown(reading):
    octets = "`%s`" % reading.octets.decode("ascii", "backslashreplace") if reading.octets else "nothing"
    return octets + (", then the end" if reading.ended else "")


def longest(readings):
    """The readings of one connection that no other reading continues, each once."""
    found = []
    for one in readings:
        if not any(agree(one, other) and (len(other.octets), other.ended) > (len(one.octets), one.ended)
                   for other in readings):
            found.append(shown(one))
    return " or ".join(dict.fromkeys(found)) or "no octets"


def readings_of(connections, receivers):
    """Of the evasions each has one connection with octets, or none."""
    return [reading for connection in connections for reading in connection.readings if reading.receiver in receivers]


def hosts_lines(versions, attacks, rows, before, after, broken):
    yield system(versions)
    yield "attacks", len(attacks), sum(len(connections) for connections in before)
    for row in rows:
        yield ("disagree",) + row
    for name, counts in broken.items():
        yield ("broken", name) + counts["sent"] + counts["norm"]
    for attack, one, other in zip(attacks, before, after):
        if attack.kind == "evasion":
            receivers = ["kernel"] + list(versions)
            cells = [longest(readings_of(one, [receiver])) for receiver in receivers]
            yield ("evasion", attack.name, *cells, longest(readings_of(other, receivers)))


def write_hosts(*found):
    write("hosts.txt", hosts_lines(*found))


def rivals_lines(nft, versions, attacks, rows, plain, kept, found):
    yield system({"nftables": nft, **versions})
    yield "attacks", len(attacks)
    for row in rows:
        yield ("disagree",) + row
    yield ("not plain",) + plain
    yield ("octets",) + tuple(octets for octets, _ in kept.values())
    yield ("datagrams",) + tuple(datagrams for _, datagrams in kept.values())
    receivers = ["kernel"] + list(versions)
    for i, attack in enumerate(attacks):
        if attack.kind == "evasion":
            yield (("evasion", attack.name)
                   + tuple(longest(readings_of(column[i], receivers)) for column in found.values()))


def write_rivals(*found):
    write("rivals.txt", rivals_lines(*found))


def without_lines(versions, attacks, rows):
    yield system(versions)
    yield "attacks", len(attacks)
    for row in rows:
        yield "rule", row.rule, row.changed, row.disagree, row.who, row.less, row.whose


def write_without(*found):
    write("without.txt", without_lines(*found))
