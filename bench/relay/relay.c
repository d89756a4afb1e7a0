/* A measure for norm's speed: a C program that does similar work, with nothing proved.

   usage: relay [--flows N] [--cells N] IN OUT PREFIX

   It reads and writes through buffers of 64 KiB, verifies the checksums of IPv4, TCP, UDP and ICMP,
   and follows connections in a table (hash chains by a seed, and lists by recency). It keeps
   unacknowledged inbound octets in cells of 256 and rewrites retransmissions by them, reassembles
   fragments, raises low TTLs, and writes one line per record. It allocates all its memory at the
   start. Captures are little-endian, in microseconds, of Ethernet or raw IP. It drops packets with
   IP options, cleans no TCP options, and does not answer as norm does for every odd packet; for
   plain traffic the capture that it writes is norm's. */
#define _POSIX_C_SOURCE 200809L
#include <arpa/inet.h>
#include <fcntl.h>
#include <stdbool.h>
#include <stdint.h>
#include <stdio.h>
#include <stdlib.h>
#include <string.h>
#include <unistd.h>

enum { BUFFER = 65536, LONGEST = 262144, HOPS = 30, IDLE = 3600, FRAG_TIME = 30, CELL = 256, ETHERNET = 1, RAW = 101 };
enum { ICMP = 1, TCP = 6, UDP = 17, FIN = 1, SYN = 2, RST = 4, ACK = 16 };
enum { CALLED, OFFERED, WARM };
static const uint32_t NONE = UINT32_MAX;
static const uint64_t seed = 0x9e3779b97f4a7c15u;

#include "octets.h"
#include "packet.h"
#include "cells.h"
#include "flows.h"
#include "pieces.h"

/* Messages. */

static void judge_tcp(struct fate *fate, struct packet *p, uint32_t now, uint8_t *second) {
    uint8_t *m = p->message;
    if (p->size < 20) { drop(fate, "T_SHORT"); return; }
    uint32_t header = 4u * (m[12] >> 4);
    if (header < 20 || header > p->size) { drop(fate, "T_HLEN"); return; }
    if (message_sum(p->octets, m, p->size) != 0xffff) { drop(fate, "T_SUM"); return; }
    if (!legal(m[13])) { drop(fate, "T_FLAGS"); return; }
    struct segment s = {get32(m + 4), get32(m + 8), get16(m + 14), header, (uint32_t)(p->size - header), m[13],
                        (int8_t)(m[13] & SYN ? scale_in(m + 20, m + header) : -1), m + header};
    if (p->inward) come_in(fate, p, &s, now, second);
    else go_out(fate, p, &s, now);
}

static void judge_udp(struct fate *fate, const struct packet *p) {
    if (p->size < 8) drop(fate, "U_SHORT");
    else if (get16(p->message + 4) != p->size) drop(fate, "U_LEN");
    else if (get16(p->message + 6) != 0 && message_sum(p->octets, p->message, p->size) != 0xffff) drop(fate, "U_SUM");
}

static void judge_icmp(struct fate *fate, const struct packet *p) {
    if (p->size < 8) drop(fate, "M_SHORT");
    else if (sum_of(p->message, p->size, 0) != 0xffff) drop(fate, "M_SUM");
    else if (p->message[0] != 0 && p->message[0] != 8) drop(fate, "M_TYPE");
}

/* Records. */

static uint32_t prefix, mask;

static bool trusted(const uint8_t *address) { return (get32(address) & mask) == prefix; }

/* The first rule on the header that drops a packet with this number of octets, or NULL. */
static const char *header_row(const uint8_t *p, size_t size, bool *sided) {
    *sided = false;
    if (size < 20) return "I_SHORT";
    uint32_t header = 4u * (p[0] & 15), total = get16(p + 2);
    if (p[0] >> 4 != 4) return "I_VERSION";
    if (header < 20 || header > size) return "I_HLEN";
    if (total < header || total > size) return "I_LEN";
    if (sum_of(p, header, 0) != 0xffff) return "I_SUM";
    if (p[12] == 0 || p[12] == 127 || p[12] >= 224 || !memcmp(p + 12, p + 16, 4)) return "I_SRC";
    if (p[16] == 0 || p[16] == 127 || p[16] >= 240) return "I_DST";
    if (trusted(p + 12) == trusted(p + 16)) return "I_SIDE";
    *sided = true;
    if (header > 20) return "I_ROUTE";
    if (p[9] != ICMP && p[9] != TCP && p[9] != UDP) return "P_PROTO";
    return NULL;
}

/* Judges the packet of a record, rewrites it in place, and returns its size. */
static size_t judge(struct fate *fate, uint8_t *octets, size_t size, uint32_t now, const char **side, uint8_t *second) {
    bool sided;
    const char *row = header_row(octets, size, &sided);
    struct packet p = {.octets = octets, .message = octets + 20};
    if (sided) p.inward = trusted(octets + 16);
    *side = sided ? (p.inward ? " in" : " out") : " -";
    if (row) { drop(fate, row); return 0; }
    size_t total = get16(octets + 2);
    p.size = total - 20;
    bool piece = get16(octets + 6) & 0x3fff;
    if (piece && !join(fate, &p, now)) return 0;
    if (size > total) mend(fate, "I_TRAIL");
    p.raised = p.inward && octets[8] <= HOPS;
    if (p.raised) { mend(fate, "I_TTL"); octets[8] = HOPS + 1; }
    if (piece) mend(fate, "F_DONE");
    if (octets[9] == TCP) judge_tcp(fate, &p, now, second);
    else if (octets[9] == UDP) judge_udp(fate, &p);
    else judge_icmp(fate, &p);
    if (fate->frames > 0 && (p.raised || p.rewritten)) {
        put16(octets + 2, (uint32_t)p.size + 20);
        put16(octets + 10, 0);
        put16(octets + 10, 0xffff - sum_of(octets, 20, 0));
    }
    return p.size + 20;
}

static void give_line(uint32_t record, const char *side, const struct fate *fate) {
    char line[400];
    size_t end = digits(line, record);
    const char *verdict = fate->held ? " hold " : fate->frames == 0 ? " drop " : fate->fixed ? " fix " : " pass ";
    size_t side_size = strlen(side), verdict_size = strlen(verdict);
    memcpy(line + end, side, side_size);
    memcpy(line + end + side_size, verdict, verdict_size);
    end += side_size + verdict_size;
    line[end++] = (char)('0' + fate->frames);
    memcpy(line + end, fate->rules, fate->length);
    end += fate->length;
    if (fate->era) { memcpy(line + end, " @", 2); end += 2; end += digits(line + end, fate->era); }
    if (fate->begun) { memcpy(line + end, " +", 2); end += 2; end += digits(line + end, fate->begun); }
    memcpy(line + end, fate->ends, fate->ends_length);
    end += fate->ends_length;
    line[end++] = '\n';
    give(&report, line, end);
}

static void give_frame(uint8_t *record, const uint8_t *link, size_t link_size, const uint8_t *packet, size_t size) {
    put_low32(record + 8, (uint32_t)(link_size + size));
    put_low32(record + 12, (uint32_t)(link_size + size));
    give(&out, record, 16);
    if (link_size > 0) give(&out, link, link_size);
    give(&out, packet, size);
}

static void relay(void) {
    static uint8_t frame[LONGEST], second[40];
    uint8_t head[24], record[16];
    if (take(head, 24) != 24 || low32(head) != 0xa1b2c3d4) fail(3);
    size_t link = low32(head + 20) == ETHERNET ? 14 : 0;
    uint32_t records = 0;
    uint64_t frames = 0;
    uint32_t now = 0;
    give(&out, head, 24);
    give(&report, "norm 2\n", 7);
    for (size_t got; (got = take(record, 16)) > 0; ) {
        size_t captured = low32(record + 8);
        if (got < 16 || captured > LONGEST || take(frame, captured) != captured) fail(4);
        struct fate fate;
        fate.length = fate.ends_length = 0;
        fate.frames = 1;
        fate.fixed = fate.held = false;
        fate.era = fate.begun = 0;
        const char *side = " -";
        size_t size = 0;
        if (low32(record) > now) now = low32(record);
        end_idle(&fate, now);
        forget_old(now);
        if (low32(record + 12) > captured) drop(&fate, "L_SNAP");
        else if (captured < link) drop(&fate, "L_SHORT");
        else if (link && get16(frame + 12) != 0x800) drop(&fate, "L_TYPE");
        else size = judge(&fate, frame + link, captured - link, now, &side, second);
        if (fate.frames > 0) give_frame(record, frame, link, frame + link, size);
        if (fate.frames > 1) give_frame(record, frame, link, second, 40);
        frames += (unsigned)fate.frames;
        give_line(++records, side, &fate);
    }
    char line[64];
    give(&report, line, (size_t)sprintf(line, "end %lu %lu\n", (unsigned long)records, (unsigned long)frames));
    spill(&out);
    spill(&report);
}

int main(int count, char **words) {
    unsigned a, b, c, d, length;
    uint32_t flow_count = 4096, cell_count = 65536;
    int at = 1;
    for (; at + 1 < count && words[at][0] == '-'; at += 2) {
        if (!strcmp(words[at], "--flows")) flow_count = (uint32_t)atol(words[at + 1]);
        else if (!strcmp(words[at], "--cells")) cell_count = (uint32_t)atol(words[at + 1]);
    }
    if (count - at != 3 ||
        sscanf(words[at + 2], "%u.%u.%u.%u/%u", &a, &b, &c, &d, &length) != 5 || length > 32)
        return 2;
    mask = length ? UINT32_MAX << (32 - length) : 0;
    prefix = (a << 24 | b << 16 | c << 8 | d) & mask;
    open_flows(flow_count, cell_count);
    open_datagrams(256, 4096);
    in.fd = open(words[at], O_RDONLY);
    out.fd = open(words[at + 1], O_WRONLY | O_CREAT | O_TRUNC, 0666);
    if (in.fd < 0 || out.fd < 0) return 5;
    relay();
    return 0;
}
