#!/usr/bin/env python3
"""Clean traffic of one host, for check/live/soak: a server, and conversations with the other host
that come and go. Every octet that arrives is compared.

usage: peers.py HOST COUNT SECONDS SEED

COUNT conversations go on at once for SECONDS. The last line is JSON: how many there were of each
kind, and what was wrong.
"""

import asyncio
import collections
import hashlib
import json
import random
import socket
import struct
import sys

ADDRESS, PIECES = "198.51.100.2", "198.51.100.3"

# What socket has no name for, and the struct of an address that a datagram came to.
PACKET_INFO, INFO = 8, struct.Struct("i4s4s")

PORT, PATIENCE = 7100, 120

# What the kernel sends on a connection that is silent for this long, and again.
KEEPALIVE = ((socket.SOL_SOCKET, socket.SO_KEEPALIVE, 1), (socket.IPPROTO_TCP, socket.TCP_KEEPIDLE, 2),
             (socket.IPPROTO_TCP, socket.TCP_KEEPINTVL, 1), (socket.IPPROTO_TCP, socket.TCP_KEEPCNT, 20))


def octets_of(seed, size):
    return random.Random(seed).randbytes(size)


# The server: what a client asks for is in its first line, KIND SIZE SEED

async def serve(reader, writer):
    try:
        kind, size, seed = (await reader.readline()).split()
        await SERVED[kind.decode()](reader, writer, int(size), int(seed))
        if kind != b"reset":
            writer.close()
    except (OSError, ValueError, asyncio.IncompleteReadError):
        writer.transport.abort()


async def echo(reader, writer, *_):
    while octets := await reader.read(65536):
        writer.write(octets)
        await writer.drain()


async def fetched(reader, writer, size, seed):
    octets = octets_of(seed, size)
    for at in range(0, size, 40000):
        writer.write(octets[at:at + 40000])
        await writer.drain()


async def stored(reader, writer, size, seed):
    writer.write(hashlib.sha256(await reader.readexactly(size)).digest())
    await writer.drain()


async def turned(reader, writer, *_):
    """Answers once the other half is closed."""
    octets = await reader.read()
    writer.write(octets[::-1])
    await writer.drain()


async def torn(reader, writer, size, _):
    writer.write(await reader.readexactly(size))
    await writer.drain()
    await asyncio.sleep(0.2)
    writer.transport.abort()


SERVED = {"short": echo, "quiet": echo, "fetch": fetched, "store": stored, "half": turned, "reset": torn}


def answer(server):
    """Sends a datagram back, turned, from the address to which it was sent."""
    octets, about, _, peer = server.recvmsg(65535, socket.CMSG_SPACE(INFO.size))
    here = INFO.unpack(about[0][2][:INFO.size])[2]
    server.sendmsg([octets[::-1]], [(socket.IPPROTO_IP, PACKET_INFO, INFO.pack(0, here, here))], 0, peer)


def answering():
    server = socket.socket(socket.AF_INET, socket.SOCK_DGRAM)
    server.setsockopt(socket.IPPROTO_IP, PACKET_INFO, 1)
    server.bind(("0.0.0.0", PORT))
    server.setblocking(False)
    asyncio.get_running_loop().add_reader(server, answer, server)
    return server


# The client

class Host:
    def __init__(self, name, rng):
        self.name, self.rng, self.faults, self.counts = name, rng, [], collections.Counter()
        self.is_outside = name == "outside"

    def ends(self, net=2):
        """Its address, and one of the other side: of any host inside, and the one outside."""
        inside = "10.0.%d.%d" % (net, self.rng.randint(1, 254))
        return (ADDRESS, inside) if self.is_outside else (inside, ADDRESS)

    async def talk(self, kind):
        """A conversation over TCP."""
        size, seed = self.rng.choice(SIZES[kind]), self.rng.getrandbits(32)
        here, there = self.ends()
        reader, writer = await asyncio.open_connection(there, PORT, local_addr=(here, 0))
        try:
            made = writer.get_extra_info("socket")
            for level, option, value in KEEPALIVE if kind == "quiet" else ():
                made.setsockopt(level, option, value)
            writer.write(b"%s %d %d\n" % (kind.encode(), size, seed))
            await TALKED[kind](self, reader, writer, octets_of(seed, size))
        finally:
            writer.transport.abort() if kind == "reset" else writer.close()

    async def exchange(self, reader, writer, octets, pauses):
        """Parts of the octets, each sent back."""
        for number in range(4):
            part = octets[number * len(octets) // 4:(number + 1) * len(octets) // 4]
            writer.write(part)
            self.same(await reader.readexactly(len(part)), part)
            await asyncio.sleep(self.rng.uniform(*pauses))

    async def short(self, reader, writer, octets):
        await self.exchange(reader, writer, octets, (0, 0.5))

    async def quiet(self, reader, writer, octets):
        await self.exchange(reader, writer, octets, (1, 6))

    async def fetch(self, reader, writer, octets):
        self.same(await reader.readexactly(len(octets)), octets)
        self.same(await reader.read(), b"")

    async def store(self, reader, writer, octets):
        writer.write(octets)
        self.same(await reader.read(), hashlib.sha256(octets).digest())

    async def half(self, reader, writer, octets):
        writer.write(octets)
        writer.write_eof()
        self.same(await reader.read(), octets[::-1])

    async def reset(self, reader, writer, octets):
        writer.write(octets)
        self.same(await reader.readexactly(len(octets)), octets)

    def same(self, found, wanted):
        if found != wanted:
            raise ValueError("%d octets arrive, and not the %d that were sent" % (len(found), len(wanted)))

    async def datagrams(self, kind):
        """Datagrams that are answered, of which some may be lost. Those of `pieces` are sent in
        fragments, since their route has a small MTU."""
        made, loop, asked = socket.socket(socket.AF_INET, socket.SOCK_DGRAM), asyncio.get_running_loop(), set()
        here, there = self.ends(3 if kind == "pieces" else 2)
        made.setblocking(False)
        made.bind((here, 0))
        made.connect((PIECES if kind == "pieces" and not self.is_outside else there, PORT))
        try:
            for _ in range(10):
                asked.add(octets := self.rng.randbytes(self.rng.choice(SIZES[kind])))
                await loop.sock_sendall(made, octets)
                try:
                    octets = await asyncio.wait_for(loop.sock_recv(made, 65535), 2)
                except asyncio.TimeoutError:
                    self.counts[kind + " unanswered"] += 1
                    continue
                if octets[::-1] not in asked:
                    raise ValueError("an answer of %d octets that was not sent" % len(octets))
                await asyncio.sleep(self.rng.uniform(0, 0.5))
        finally:
            made.close()

    async def ping(self, kind):
        """ping compares what comes back."""
        here, there = self.ends()
        words = ["ping", "-n", "-q", "-c", "20", "-i", "0.2", "-W", "2", "-s", str(self.rng.randint(16, 1472)), "-I",
                 here, there]
        process = await asyncio.create_subprocess_exec(*words, stdout=asyncio.subprocess.PIPE,
                                                       stderr=asyncio.subprocess.STDOUT)
        said = (await process.communicate())[0]
        if b"wrong data" in said or b" 0 received" in said:
            raise ValueError("ping: " + said.decode("utf-8", "replace"))

    async def converse(self, deadline):
        """One conversation after another, of any kind."""
        loop = asyncio.get_running_loop()
        await asyncio.sleep(self.rng.uniform(0, 10))
        while loop.time() < deadline and len(self.faults) < 5:
            kind = self.rng.choices(list(KINDS), KINDS.values())[0]
            work = {"ping": self.ping, "udp": self.datagrams, "pieces": self.datagrams}.get(kind, self.talk)
            try:
                await asyncio.wait_for(work(kind), PATIENCE)
                self.counts[kind] += 1
            except (OSError, ValueError, asyncio.IncompleteReadError, asyncio.TimeoutError) as fault:
                self.faults.append("%s: %s %s" % (kind, type(fault).__name__, fault))
            await asyncio.sleep(self.rng.uniform(0, 2))


TALKED = {"short": Host.short, "quiet": Host.quiet, "fetch": Host.fetch, "store": Host.store, "half": Host.half,
          "reset": Host.reset}

# How often there is each kind, and which sizes it has.
KINDS = {"short": 30, "quiet": 30, "fetch": 4, "store": 4, "half": 10, "reset": 8, "udp": 10, "pieces": 4, "ping": 0.1}

LONG = (1, 1448, 1449, 100000, 500000)

SIZES = {"short": (4, 100, 1000, 5000), "quiet": (4, 100, 1000), "fetch": LONG, "store": LONG,
         "half": (0, 1, 3000, 30000), "reset": (1, 1000), "udp": (1, 100, 1000, 1472), "pieces": (900, 1000, 1400)}


async def run(name, count, seconds, seed):
    loop, host = asyncio.get_running_loop(), Host(name, random.Random("%s %s" % (name, seed)))
    await asyncio.start_server(serve, "0.0.0.0", PORT, backlog=4096)
    answering()
    print("open", flush=True)
    await loop.run_in_executor(None, sys.stdin.readline)
    deadline = loop.time() + seconds
    await asyncio.gather(*[host.converse(deadline) for _ in range(count)])
    print(json.dumps({"counts": host.counts, "faults": host.faults}), flush=True)
    await loop.run_in_executor(None, sys.stdin.readline)


if __name__ == "__main__":
    asyncio.run(run(sys.argv[1], int(sys.argv[2]), float(sys.argv[3]), sys.argv[4]))
