"""What receivers read of the connections of an attack, and which of them disagree."""

import os
import subprocess
from concurrent.futures import ThreadPoolExecutor
from types import SimpleNamespace

from lib.outcome import skip
from model.formats import read_ipv4
from model.receivers import agree
from receivers import kernel, monitors, namespace, router, stacks
from receivers.attacks import in_time
from receivers.connections import OUTSIDES, flat, has_stream, packets_of_eras

DISTANCES = (0, 20, 30)

# Pairs of receivers, of which two may disagree: how they are named, in the order of the tables.
ITSELF, ANY_ORDER, WITH_MONITOR, MONITORS, ANY = ("the kernel with itself, packets in order",
                                                  "the kernel with itself, packets in any order", "the kernel with %s",
                                                  "two of the monitors", "any two")

STACK_ITSELF, WITH_STACK, STACKS = ("%s with itself, packets in any order",
                                    "the kernel with %s, packets in any order",
                                    "two of the other stacks, packets in any order")


def connections_of(attack, forwarded, routed):
    """The eras of which receivers read something, with their packets. `routed`: a router forwarded
    them."""
    found = packets_of_eras(attack.settings, attack.eras, forwarded)
    if routed:
        found = [router.faithful(*three)
                 for three in zip(attack.eras, packets_of_eras(attack.settings, attack.eras, flat(attack.sent)), found)]
    return [pair for pair in zip(attack.eras, found) if has_stream(pair[1])]


def nearer(packets, routers):
    """The packets that reach a host behind this number of routers."""
    return [packet for packet in packets if not packet.inward or read_ipv4(packet.octets).ttl > routers]


def runs_of(attack, era, packets, passed):
    """What a host is tried with: each set of packets that a distance lets by, in each order, and
    with both ways to begin. The packets have passed `passed` routers already."""
    found, seen = [], []
    for routers in DISTANCES:
        arriving = nearer(packets, max(0, routers - passed))
        if routers > attack.settings.hops or [packet.octets for packet in arriving] in seen or not has_stream(arriving):
            continue
        seen.append([packet.octets for packet in arriving])
        for handshake, orders in ((True, kernel.ORDERS[:1] if era.opener else ()), (False, kernel.ORDERS)):
            for order in orders:
                how = ("%d routers, %s, %s"
                       % (routers, order, "own handshake" if handshake else "begun at the connection's numbers"))
                found.append(SimpleNamespace(packets=arriving, order=order, handshake=handshake, how=how))
    return found


def kernel_reading(host, era, run):
    """A list of one reading, or of none where it does not begin at the era's first octet."""
    read = kernel.reading(host, era, run.packets, run.order, run.handshake)
    if read is None or read.base != era.base:
        return []
    return [SimpleNamespace(receiver="kernel", order=run.order, octets=read.octets, ended=read.ended, how=run.how)]


def read_by_kernel(host, attacks, columns, deadline):
    """For each column and each attack that the kernel reads in time its connections: their eras,
    packets, runs and readings so far."""
    found = {column: [] for column in columns}
    for i, attack in enumerate(in_time(attacks, deadline)):
        for column, forwarded in columns.items():
            routed, read = column in router.RULES, []
            for era, packets in connections_of(attack, forwarded[i], routed):
                runs = runs_of(attack, era, packets, int(routed))
                readings = [reading for run in runs for reading in kernel_reading(host, era, run)]
                read.append(SimpleNamespace(era=era, column=column, packets=packets, runs=runs, readings=readings))
            found[column].append(read)
    return found


def read_columns(host, others, folder, attacks, columns, deadlines):
    """What is read of each connection of each attack that the kernel reads in time. `others` has
    the names of monitors and those of stacks, `columns` for each column the packets forwarded of
    each attack, and `deadlines` those of the kernel and of the others. Returns the connections for
    each column, and the monitors that ended in time. For each stack that did, and each column, it
    also returns in how many runs it died and in how many it delivered octets that nobody sent."""
    found, (monitor_names, stack_names) = read_by_kernel(host, attacks, columns, deadlines[0]), others
    every = [one for column in columns for connections in found[column] for one in connections]
    opened = [one for one in every if one.era.opener]
    captures, tasks = captures_of(opened, folder), {}
    with ThreadPoolExecutor(initializer=namespace.leave_processor) as pool:
        for name in stack_names:
            tasks[name] = pool.submit(stacks.read, name, folder, every, deadlines[1])
        for name in reversed(monitor_names):        # tshark is the slowest by far.
            tasks[name] = pool.submit(streams_of, name, folder, captures, deadlines[1])
    read = {name: result_of(name, task) for name, task in tasks.items()}
    add_streams(opened, {name: read[name] for name in monitor_names if read[name] is not None})
    broken = {name: add_readings(columns, read[name]) for name in stack_names if read[name] is not None}
    return found, [name for name in monitor_names if read[name] is not None], broken


def captures_of(connections, folder):
    """The connections in captures, in each as many as there are outside addresses."""
    parts = [connections[i:i + OUTSIDES] for i in range(0, len(connections), OUTSIDES)]
    return [monitors.renumbered([(one.era, one.packets) for one in part], os.path.join(folder, "part-%d.pcap" % i))
            for i, part in enumerate(parts)]


def streams_of(name, folder, captures, deadline):
    """What a monitor delivers of each connection of the captures: octets or None."""
    return [octets for capture in captures for octets in monitors.streams(name, folder, capture, deadline)]


def result_of(name, task):
    """What the task of a receiver returned; None where it did not end in time."""
    try:
        return task.result()
    except subprocess.TimeoutExpired:
        skip("more time", name)
        return None


def add_streams(opened, streams):
    for name, found in streams.items():
        for one, octets in zip(opened, found):
            if octets is not None:
                start = monitors.start_of(name, one.era, [packet.octets for packet in one.packets if packet.inward])
                one.readings.append(SimpleNamespace(receiver=name, order="in order", octets=octets, ended=False,
                                                    start=start, how="from offset %d" % start))


def add_readings(columns, results):
    """Adds the readings of a stack to their connections; returns its counts of faults."""
    counts = {column: [0, 0] for column in columns}
    for one, reading, died, invented in results:
        counts[one.column][0] += died
        counts[one.column][1] += invented
        one.readings += [reading] if reading is not None else []
    return {column: tuple(pair) for column, pair in counts.items()}


def distinct(readings):
    """The readings, without those that are as an earlier one of the same receiver."""
    first = {}
    for one in readings:
        start = getattr(one, "start", 0)
        first.setdefault((one.receiver, one.order == "in order", one.octets, one.ended, start), one)
    return list(first.values())


def agree_from(one, other):
    """Whether two readings agree from the offset on from which both read."""
    starts = getattr(one, "start", 0), getattr(other, "start", 0)
    return agree(*(SimpleNamespace(octets=each.octets[max(starts) - start:], ended=each.ended)
                   for each, start in zip((one, other), starts)))


def disagreements(connections, names, stack_names=()):
    """The kinds of receivers of which two disagree on one of the connections, each with two
    readings."""
    found = {}
    for connection in connections:
        readings = distinct(connection.readings)
        in_order = [one for one in readings if one.order == "in order"]
        of = {name: [one for one in in_order if one.receiver == name] for name in ["kernel"] + names}
        every = [one for one in readings if one.receiver == "kernel"]
        note(found, ITSELF, of["kernel"], of["kernel"])
        note(found, ANY_ORDER, every, every)
        for i, name in enumerate(names):
            note(found, WITH_MONITOR % name, of["kernel"], of[name])
            for other in names[i + 1:]:
                note(found, MONITORS, of[name], of[other])
        for i, name in enumerate(stack_names):
            mine = [one for one in readings if one.receiver == name]
            note(found, STACK_ITSELF % name, mine, mine)
            note(found, WITH_STACK % name, every, mine)
            for other in stack_names[i + 1:]:
                note(found, STACKS, mine, [one for one in readings if one.receiver == other])
        note(found, ANY, readings, readings)
    return found


def note(found, kind, some, others):
    for one in some:
        for other in others:
            if kind not in found and not agree_from(one, other):
                found[kind] = (one, other)


def kinds(names, stack_names=()):
    found = [ITSELF, ANY_ORDER]
    for name in stack_names:
        found += [STACK_ITSELF % name, WITH_STACK % name]
    return (found + [STACKS] * (len(stack_names) > 1) + [WITH_MONITOR % name for name in names]
            + [MONITORS] * (len(names) > 1) + [ANY])
