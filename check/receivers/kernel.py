"""The Linux kernel's own TCP as a receiver: it is fed through a TUN device in a network namespace,
and what its socket returns is the reading.

A socket is set up in one of two ways. With its own handshake (`handshake`) the kernel chooses its
first sequence number, so acknowledgments and echoed timestamps of inbound packets are shifted to
what it chose. Otherwise (`repair`, TCP_REPAIR) the socket begins at the numbers of the era, and
packets can be fed in any order. In both the octets that the capture's host sent are queued and
never sent, so that acknowledgments of them are good. What the kernel sends is discarded. Each
reading has its own outside address, so that nothing of one reading is left for the next.
"""

import contextlib
import os
import random
import select
import socket
import struct
import time
from types import SimpleNamespace

from model.eras import near
from model.formats import ACK, FIN, ICMP, RST, SYN, four
from model.packets import icmp, ipv4
from receivers import namespace
from receivers.connections import inside_like, outside_like, renamed
from receivers.packets import echo_at, key_of, moved, tcp_of

# Numbers of Linux that the module socket does not name.
REPAIR, REPAIR_QUEUE, QUEUE_SEQ, REPAIR_OPTIONS, REPAIR_WINDOW, TCP_STATE = 19, 20, 21, 22, 29, 11

SEND_BUFFER_FORCE, RECEIVE_BUFFER_FORCE = 32, 33

RECEIVE_QUEUE, SEND_QUEUE = 1, 2

REPAIR_ON, REPAIR_OFF = 1, -1

# Options in a repaired socket: the segment size, both window scales, SACK, timestamps.
SEGMENT_SIZE, SCALE, SACK, STAMPS = 2, 3, 4, 8

# States of a socket whose both sides are in step: all but SYN sent, SYN received, closed and
# listening.
IN_STEP = (1, 4, 5, 6, 8, 9, 11)

WINDOW = 2**29

LONGEST_ANSWER = 2**22

SETTINGS = {
    "ipv4/conf/all/rp_filter": 0, "ipv4/conf/default/rp_filter": 0, "ipv4/conf/tun0/rp_filter": 0,
    "ipv6/conf/all/disable_ipv6": 1,
    "ipv4/conf/all/log_martians": 0, "ipv4/tcp_syncookies": 0, "ipv4/tcp_fastopen": 0, "ipv4/tcp_max_tw_buckets": 0,
    "ipv4/tcp_no_metrics_save": 1, "ipv4/icmp_ratelimit": 0,
    "ipv4/tcp_rmem": "4096 1048576 268435456", "ipv4/ipfrag_time": 5,
}

ORDERS = ("in order", "reversed", "doubled", "shuffled")


def open_host():
    """The host: every address of 10.0.0.0/8 is its own, and all others are reached through the
    device."""
    device = namespace.open_device("tun0", namespace.TUN)
    namespace.configure(SETTINGS,
                        ["link set lo up", "link set tun0 mtu 65535 up", "route add default dev tun0",
                         "route add local 10.0.0.0/8 dev lo"])
    return SimpleNamespace(device=device, readings=0)


def arranged(packets, order):
    """The packets in an order. But for `in order` the host has sent all that it sends before the
    first inbound packet; a reset of it is left out."""
    if order == "in order":
        return packets
    inward = [packet for packet in packets if packet.inward]
    outward = [packet for packet in packets if not packet.inward and not has(packet, RST)]
    if order == "reversed":
        inward = inward[::-1]
    elif order == "doubled":
        inward = inward + inward
    elif order == "shuffled":
        random.Random(1).shuffle(inward)
    return sorted(outward, key=lambda packet: bool(has(packet, FIN))) + inward


def has(packet, flag):
    return packet.tcp is not None and packet.tcp.flags & flag


# One reading

def reading(host, era, packets, order="in order", handshake=False):
    """What the socket returns: the octets, whether the end followed, and the sequence number of the
    first octet. None where no socket was opened."""
    host.readings += 1
    outside, inside = outside_like(era.key[0], host.readings), inside_like(era.key[2])
    peer = SimpleNamespace(host=host, era=era, outside=outside, inside=inside, there=(dotted(outside), era.key[1]),
                           here=(dotted(inside), era.key[3]),
                           socket=None, listener=None, awaits_syn=handshake, shift=0, echo=None, sent=0, shut=False,
                           octets=bytearray(), ended=False, gone=False, base=None)
    try:
        open_handshake(peer) if handshake else open_repaired(peer)
        for packet in arranged(packets, order):
            feed(peer, packet, handshake) if packet.inward else answer(peer, packet, handshake)
        settle(peer)
        drain(peer)
    finally:
        for each in (peer.socket, peer.listener):
            if each is not None:
                abort(each)
    if peer.base is None:
        return None
    return SimpleNamespace(octets=bytes(peer.octets), ended=peer.ended, base=peer.base)


def dotted(address):
    return socket.inet_ntoa(four(address))


def new_socket():
    made = socket.socket(socket.AF_INET, socket.SOCK_STREAM)
    made.setsockopt(socket.SOL_SOCKET, socket.SO_REUSEADDR, 1)
    made.setsockopt(socket.SOL_SOCKET, RECEIVE_BUFFER_FORCE, 2**28)
    made.setsockopt(socket.SOL_SOCKET, SEND_BUFFER_FORCE, 2**24)
    return made


def set_option(made, name, *numbers):
    made.setsockopt(socket.IPPROTO_TCP, name,
                    struct.pack("=%dI" % len(numbers), *numbers) if len(numbers) > 1 or name == QUEUE_SEQ
                    else numbers[0])


@contextlib.contextmanager
def repairing(made):
    """In it the socket is in repair mode. The kernel then takes its address for its own alone,
    where a later reading needs it."""
    set_option(made, REPAIR, REPAIR_ON)
    try:
        yield
    finally:
        set_option(made, REPAIR, REPAIR_OFF)
        made.setsockopt(socket.SOL_SOCKET, socket.SO_REUSEADDR, 1)


def open_repaired(peer):
    """An open socket at the era's numbers, with a window that holds every octet."""
    made, era = new_socket(), peer.era
    peer.socket, peer.base = made, era.base
    with repairing(made):
        made.bind(peer.here)
        for queue, number in ((RECEIVE_QUEUE, era.base), (SEND_QUEUE, era.sent)):
            set_option(made, REPAIR_QUEUE, queue)
            set_option(made, QUEUE_SEQ, number)
        made.connect(peer.there)
        options = [SEGMENT_SIZE, 1460, SCALE, 14 + (14 << 16)] + [SACK, 0] * era.sack + [STAMPS, 0] * era.stamps
        set_option(made, REPAIR_OPTIONS, *options)
        set_option(made, REPAIR_WINDOW, era.base, WINDOW, WINDOW, WINDOW, era.base)
    made.setblocking(False)


def open_handshake(peer):
    """A listening socket; where the inside opens, a socket that connects with the first SYN
    outwards."""
    if peer.era.opener == "in":
        peer.listener = new_socket()
        peer.listener.bind(peer.here)
        peer.listener.listen(4)
        peer.listener.setblocking(False)


def connect(peer):
    peer.socket = new_socket()
    peer.socket.setblocking(False)
    peer.socket.bind(peer.here)
    peer.socket.connect_ex(peer.there)


def feed(peer, packet, handshake):
    octets = moved(packet.octets, peer.shift, peer.echo) if handshake else packet.octets
    write(peer, renamed(octets, True, peer.outside, peer.inside))
    take_answers(peer)
    if peer.listener is not None and peer.socket is None:
        accept(peer)
    drain(peer)


def write(peer, octets):
    try:
        os.write(peer.host.device, octets)
    except OSError:
        pass        # The device takes no packet that is not IP: no host ever sees it.


def accept(peer):
    try:
        peer.socket, _ = peer.listener.accept()
        peer.socket.setblocking(False)
    except BlockingIOError:
        pass


def take_answers(peer):
    """Reads what the kernel sent; its SYN has the numbers by which later packets are shifted.
    Returns the packets."""
    packets = list(namespace.packets_from(peer.host.device))
    for octets in packets if peer.awaits_syn else []:
        tcp = tcp_of(octets)
        if (tcp is not None and tcp.flags & SYN and peer.era.iss is not None
            and key_of(octets, False)[:2] == (peer.outside, peer.era.key[1])):
            peer.awaits_syn, peer.shift, where = False, (tcp.seq - peer.era.iss) % 2**32, echo_at(octets)
            peer.echo = None if where is None else struct.unpack(">I", octets[where - 4:where])[0]
    return packets


def answer(peer, packet, handshake):
    """What the capture's host sends: the socket has sent it too, on no wire."""
    tcp = packet.tcp
    if tcp is None or peer.gone:
        return
    if handshake and peer.era.opener == "out" and peer.socket is None and tcp.flags & (SYN | ACK | RST) == SYN:
        connect(peer)
        take_answers(peer)
    elif peer.socket is not None:
        settle(peer)
        drain(peer)
        if tcp.flags & RST:
            peer.gone = True
        else:
            queue(peer, near(tcp.seq + bool(tcp.flags & SYN) + len(tcp.payload) - peer.era.sent, peer.sent),
                  tcp.flags & FIN)


def queue(peer, upto, fin):
    """Puts octets up to this offset into the send queue, and the FIN after them."""
    if peer.shut or not 0 <= upto - peer.sent <= LONGEST_ANSWER:
        return
    try:
        with repairing(peer.socket):
            set_option(peer.socket, REPAIR_QUEUE, SEND_QUEUE)
            send(peer, upto, fin)
    except OSError:
        pass        # The socket was reset.


def send(peer, upto, fin):
    """Sends octets up to this offset, and the FIN."""
    while upto > peer.sent:
        peer.sent += peer.socket.send(bytes(min(upto - peer.sent, 65536)))
    if fin:
        peer.socket.shutdown(socket.SHUT_WR)
        peer.shut = True


def drain(peer):
    """Takes what the socket returns by now."""
    if peer.socket is None or peer.gone:
        return
    find_base(peer)
    while not peer.ended:
        try:
            octets = peer.socket.recv(2**20)
        except BlockingIOError:
            return
        except OSError:
            peer.gone = peer.base is not None
            return
        peer.ended = octets == b""
        peer.octets += octets


def find_base(peer):
    """The sequence number of the first octet, from the number of the next one while nothing is
    taken yet."""
    if peer.base is not None:
        return
    try:
        if peer.socket.getsockopt(socket.IPPROTO_TCP, TCP_STATE, 1)[0] not in IN_STEP:
            return
        waiting = len(peer.socket.recv(2**20, socket.MSG_PEEK)) if select.select([peer.socket], [], [], 0)[0] else 0
        closed = peer.socket.getsockopt(socket.IPPROTO_TCP, TCP_STATE, 1)[0] in (8, 9, 11)
        with repairing(peer.socket):
            set_option(peer.socket, REPAIR_QUEUE, RECEIVE_QUEUE)
            following = struct.unpack("=I", peer.socket.getsockopt(socket.IPPROTO_TCP, QUEUE_SEQ, 4))[0]
        peer.base = (following - waiting - closed) % 2**32
    except OSError:
        pass


def settle(peer):
    """Waits until the kernel has worked on all packets that were written: until it answers an echo
    request after them."""
    request = icmp(8, 0, struct.pack(">HH", 1, peer.host.readings % 65536))
    write(peer, ipv4(peer.outside, peer.inside, ICMP, request))
    deadline = time.monotonic() + 5
    while time.monotonic() < deadline:
        for octets in take_answers(peer):
            if octets[9] == ICMP and octets[20:22] == b"\0\0" and octets[24:28] == request[4:8]:
                return
        select.select([peer.host.device], [], [], 0.1)
    raise OSError("the kernel does not answer")


def abort(made):
    """Closes a socket so that nothing of it is left."""
    try:
        made.setsockopt(socket.SOL_SOCKET, socket.SO_LINGER, struct.pack("=ii", 1, 0))
    finally:
        made.close()
