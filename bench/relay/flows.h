/* Flows, in chains by hash, in a list by recency, and those without cells in another. */

struct links { uint32_t before, after; };
struct flow {
    uint32_t outside, inside, ports;
    uint32_t next;                   /* in its bucket, or among those that are free */
    struct links recent, empty;
    struct chain kept;
    uint32_t number, touched, base, iss, sent;
    uint64_t acked, edge, top, end;
    uint8_t state;
    bool has_iss, has_sent, has_end, out_fin, in_syn, out_syn;
    int8_t in_scale, out_scale;      /* -1: none */
};
static struct pool streams;
static struct flow *flows;           /* the last one is the sentinel of both lists */
static uint32_t *buckets;
static uint32_t flow_limit, bucket_mask, live, begun, free_flow, hub;

#define UNLINK(list, id) do { \
        flows[flows[id].list.before].list.after = flows[id].list.after; \
        flows[flows[id].list.after].list.before = flows[id].list.before; \
        flows[id].list.before = flows[id].list.after = id; \
    } while (0)
#define LINK_LAST(list, id) do { \
        uint32_t last_ = flows[hub].list.before; \
        flows[last_].list.after = id; \
        flows[id].list = (struct links){last_, hub}; \
        flows[hub].list.before = id; \
    } while (0)

static void open_flows(uint32_t flow_count, uint32_t cell_count) {
    uint32_t bucket_count = 1;
    while (bucket_count < flow_count) bucket_count *= 2;
    flow_limit = hub = flow_count;
    bucket_mask = bucket_count - 1;
    flows = room(flow_count + 1, sizeof *flows);
    buckets = room(bucket_count, sizeof *buckets);
    open_pool(&streams, cell_count);
    memset(buckets, 0xff, bucket_count * sizeof *buckets);
    for (uint32_t i = 0; i < flow_count; i++) flows[i].next = i + 1 < flow_count ? i + 1 : NONE;
    flows[hub].recent = flows[hub].empty = (struct links){hub, hub};
}

static uint32_t *bucket_of(uint32_t outside, uint32_t inside, uint32_t ports) {
    uint64_t h = ((uint64_t)outside << 32 | inside) ^ seed;
    h = (h ^ h >> 29) * 0xbf58476d1ce4e5b9u + ports;
    h = (h ^ h >> 32) * 0x94d049bb133111ebu;
    return &buckets[(h >> 32) & bucket_mask];
}

static uint32_t find(uint32_t outside, uint32_t inside, uint32_t ports) {
    uint32_t id = *bucket_of(outside, inside, ports);
    while (id != NONE && (flows[id].outside != outside || flows[id].inside != inside ||
                          flows[id].ports != ports))
        id = flows[id].next;
    return id;
}

static void end_flow(uint32_t id) {
    struct flow *f = &flows[id];
    uint32_t *at = bucket_of(f->outside, f->inside, f->ports);
    while (*at != id) at = &flows[*at].next;
    *at = f->next;
    forget_all(&streams, &f->kept);
    UNLINK(recent, id);
    UNLINK(empty, id);
    f->next = free_flow;
    free_flow = id;
    live--;
}

static void tell_end(struct fate *fate, const struct flow *f, const char *reason) {
    char *at = fate->ends + fate->ends_length;
    size_t size = strlen(reason);
    *at++ = ' ';
    *at++ = '-';
    at += digits(at, f->number);
    memcpy(at, reason, size);
    at += size;
    at += digits(at, f->kept.octets);
    fate->ends_length = (size_t)(at - fate->ends);
}

/* A new flow; if the table is full, it replaces the one without cells that was touched first; NONE
   if each has cells. */
static uint32_t begin_flow(struct fate *fate, uint32_t outside, uint32_t inside, uint32_t ports) {
    if (live == flow_limit) {
        uint32_t oldest = flows[hub].empty.after;
        if (oldest == hub) return NONE;
        tell_end(fate, &flows[oldest], ":evicted:");
        end_flow(oldest);
    }
    uint32_t id = free_flow, *bucket = bucket_of(outside, inside, ports);
    free_flow = flows[id].next;
    flows[id] = (struct flow){.outside = outside, .inside = inside, .ports = ports, .next = *bucket, .number = ++begun,
                              .kept = NO_CELLS, .in_scale = -1, .out_scale = -1};
    *bucket = id;
    LINK_LAST(recent, id);
    LINK_LAST(empty, id);
    live++;
    fate->era = fate->begun = begun;
    return id;
}

static void touch(uint32_t id, uint32_t now) {
    struct flow *f = &flows[id];
    f->touched = now;
    UNLINK(recent, id);
    LINK_LAST(recent, id);
    UNLINK(empty, id);
    if (f->kept.count == 0) LINK_LAST(empty, id);
}

static void end_idle(struct fate *fate, uint32_t now) {
    for (int i = 0; i < 2; i++) {
        uint32_t oldest = flows[hub].recent.after;
        if (oldest == hub || (uint64_t)flows[oldest].touched + IDLE >= now) return;
        tell_end(fate, &flows[oldest], ":idle:");
        end_flow(oldest);
    }
}

/* Segments. */

struct segment {
    uint32_t seq, ack, window, header, length;   /* length: of the payload */
    uint8_t flags;
    int8_t scale;                                /* that of a SYN's option; -1: none */
    uint8_t *payload;
};

/* The window scale among the options of a SYN. */
static int8_t scale_in(const uint8_t *p, const uint8_t *end) {
    while (p < end && *p != 0) {
        if (*p == 1) { p++; continue; }
        if (end - p < 2 || p[1] < 2 || p[1] > end - p) return -1;
        if (*p == 3 && p[1] == 3) return (int8_t)(p[2] > 14 ? 14 : p[2]);
        p += p[1];
    }
    return -1;
}

static bool legal(uint8_t flags) {
    flags &= FIN | SYN | RST | ACK;
    return flags == SYN || flags == (SYN | ACK) || flags == ACK || flags == (FIN | ACK) ||
           flags == RST || flags == (RST | ACK);
}

/* The offset of a sequence number in the stream, next to what is acknowledged. */
static int64_t offset_of(const struct flow *f, uint32_t seq) {
    return (int64_t)f->acked + (int32_t)(seq - (f->base + (uint32_t)f->acked));
}

static unsigned shift_of(const struct flow *f) {
    if (!f->in_syn || !f->out_syn) return 14;
    return f->in_scale >= 0 && f->out_scale >= 0 ? (unsigned)f->out_scale : 0;
}

static bool closed(const struct flow *f) {
    return f->state == WARM && f->has_end && f->acked >= f->end + 1 && f->out_fin;
}

static uint64_t next_place(const struct flow *f) {
    uint64_t next = f->acked > f->top ? f->acked : f->top;
    return f->has_end && f->end + 1 > next ? f->end + 1 : next;
}

/* An outbound segment updates its flow: what is acknowledged, the window's edge, SYN and FIN. */
static void sent_out(struct flow *f, const struct segment *s) {
    if (s->flags & ACK) {
        unsigned shift = s->flags & SYN ? 0 : shift_of(f);
        if (f->state == CALLED) { f->base = s->ack; }
        int64_t place = offset_of(f, s->ack);
        if (place >= 0) {
            if ((uint64_t)place > f->acked) f->acked = (uint64_t)place;
            uint64_t edge = (uint64_t)place + ((uint64_t)s->window << shift);
            if (edge > f->edge) f->edge = edge;
            f->state = WARM;
        }
    }
    if (s->flags & SYN) {
        if (!f->has_iss) { f->iss = s->seq; f->has_iss = true; }
        f->out_syn = true;
        if (s->scale > f->out_scale) f->out_scale = s->scale;
    }
    if (s->flags & FIN) f->out_fin = true;
    f->sent = s->seq + s->length + !!(s->flags & SYN) + !!(s->flags & FIN);
    f->has_sent = true;
    forget_below(&streams, &f->kept, f->acked);
}

static void go_out(struct fate *fate, struct packet *p, const struct segment *s, uint32_t now) {
    uint32_t outside = get32(p->octets + 16), inside = get32(p->octets + 12);
    uint32_t ports = get16(p->message + 2) << 16 | get16(p->message);
    uint32_t id = find(outside, inside, ports);
    if (id != NONE) {
        struct flow *f = &flows[id];
        fate->era = f->number;
        if (s->flags & RST) {
            tell_end(fate, f, ":reset:");
            end_flow(id);
            return;
        }
        if (s->flags & SYN && (f->has_iss ? f->iss != s->seq : f->state != OFFERED)) {
            tell_end(fate, f, ":reopened:");
            end_flow(id);
            id = NONE;
        }
    }
    if (id == NONE) {
        if (s->flags & RST) return;
        id = begin_flow(fate, outside, inside, ports);
        if (id == NONE) { name(fate, "T_FULL"); return; }
    }
    sent_out(&flows[id], s);
    touch(id, now);
}

/* Writes the probe of a flow after the packet in `p`: ACK alone, one before what the inside
   awaits. */
static void probe(uint8_t *to, const struct packet *p, const struct segment *s, uint32_t seq, uint32_t ack) {
    memcpy(to, p->octets, 20);
    put16(to + 2, 40);
    put16(to + 10, 0);
    memcpy(to + 20, p->message, 4);
    put32(to + 24, seq);
    put32(to + 28, ack);
    put16(to + 32, 0x5000 | ACK);
    put16(to + 34, s->window);
    put32(to + 36, 0);
    put16(to + 10, 0xffff - sum_of(to, 20, 0));
    put16(to + 36, 0xffff - message_sum(to, to + 20, 20));
}

/* A segment of the stream: what is acknowledged, past the window or past the end is cut off, and
   its octets are the first at their offsets. */
static void come_stream(struct fate *fate, struct packet *p, const struct segment *s, uint32_t id, uint32_t now) {
    struct flow *f = &flows[id];
    int64_t from = offset_of(f, s->seq), to = from + s->length;
    uint64_t last = f->has_end && f->end < f->edge + 1 ? f->end : f->edge + 1;
    uint64_t lo = from > (int64_t)f->acked ? (uint64_t)from : f->acked;
    uint64_t hi = to < (int64_t)last ? (to > 0 ? (uint64_t)to : 0) : last;
    uint64_t highest = f->top > f->acked ? f->top : f->acked;
    bool fin = s->flags & FIN;
    bool kept = fin && (f->has_end ? to == (int64_t)f->end
                                   : to >= (int64_t)highest && to <= (int64_t)f->edge);
    if (hi < lo) hi = lo;
    fate->era = f->number;
    if (!fits(&streams, &f->kept, lo, hi)) { drop(fate, "T_ROOM"); return; }
    uint8_t *octets = s->payload + (lo < hi ? (int64_t)lo - from : 0);
    bool clash = settle(&streams, &f->kept, lo, hi, octets), before = s->length && from < (int64_t)f->acked;
    bool past = s->length && to > (int64_t)f->edge + 1;
    bool behind = (s->length && f->has_end && to > (int64_t)f->end) || (fin && !kept);
    if (before) mend(fate, "T_OLD");
    if (past) mend(fate, "T_WINDOW");
    if (behind) mend(fate, "T_END");
    if (clash) mend(fate, "T_CLASH");
    if (before || past || behind || clash) {
        if (lo < hi) put32(p->message + 4, f->base + (uint32_t)lo);
        else if (kept) put32(p->message + 4, f->base + (uint32_t)to);
        if (fin && !kept) p->message[13] &= (uint8_t)~FIN;
        memmove(s->payload, octets, hi - lo);
        p->size = s->header + (hi - lo);
        put16(p->message + 16, 0);
        put16(p->message + 16, 0xffff - message_sum(p->octets, p->message, p->size));
        p->rewritten = true;
    }
    if (kept && !f->has_end) { f->end = (uint64_t)to; f->has_end = true; }
    if (lo < hi && hi > f->top) f->top = hi;
    touch(id, now);
}

static void come_cold(struct fate *fate, struct packet *p, const struct segment *s, uint32_t ports,
                      uint32_t now, uint8_t *second) {
    if (s->flags & RST || (s->flags & (SYN | ACK)) == (SYN | ACK)) { drop(fate, "T_COLD"); return; }
    if (!(s->flags & SYN)) {
        mend(fate, "C_PROBE");
        probe(second, p, s, s->seq - 1, s->ack);
        memcpy(p->octets, second, 40);
        p->size = 20;
        p->rewritten = true;
        return;
    }
    uint32_t id = begin_flow(fate, get32(p->octets + 12), get32(p->octets + 16), ports);
    if (id == NONE) { drop(fate, "T_FULL"); return; }
    struct flow *f = &flows[id];
    f->state = OFFERED;
    f->base = s->seq + 1;
    f->in_syn = true;
    f->in_scale = s->scale;
    touch(id, now);
}

/* An inbound SYN of a flow that exists. */
static void come_call(struct fate *fate, struct packet *p, const struct segment *s, uint32_t id,
                      uint32_t now, uint8_t *second) {
    struct flow *f = &flows[id];
    uint32_t number = f->number, ports = f->ports;
    fate->era = number;
    if (f->state == CALLED) {
        if (s->flags & ACK && s->ack != f->iss + 1) { drop(fate, "T_STATE"); return; }
        f->state = OFFERED;
        f->base = s->seq + 1;
    } else if (s->seq + 1 != f->base) {
        if (!closed(f) || s->flags & ACK) { drop(fate, "T_SYN"); return; }
        tell_end(fate, f, ":reopened:");
        end_flow(id);
        come_cold(fate, p, s, ports, now, second);
        return;
    }
    f->in_syn = true;
    if (s->scale > f->in_scale) f->in_scale = s->scale;
    touch(id, now);
}

static void come_reset(struct fate *fate, struct packet *p, const struct segment *s, uint32_t id,
                       uint32_t now, uint8_t *second) {
    struct flow *f = &flows[id];
    int64_t place = offset_of(f, s->seq);
    bool awaited = f->state == CALLED
        ? s->flags & ACK && s->ack == f->iss + 1
        : place >= (int64_t)f->acked && place <= (int64_t)next_place(f);
    fate->era = f->number;
    if (!awaited) { drop(fate, "T_RST"); return; }
    if (f->has_sent) {
        mend(fate, "C_PROBE");
        fate->frames = 2;
        probe(second, p, s, f->state == CALLED ? s->seq - 1 : f->base + (uint32_t)f->acked - 1, f->sent);
    }
    touch(id, now);
}

static void come_in(struct fate *fate, struct packet *p, const struct segment *s, uint32_t now, uint8_t *second) {
    uint32_t ports = get16(p->message) << 16 | get16(p->message + 2);
    uint32_t id = find(get32(p->octets + 12), get32(p->octets + 16), ports);
    if (id == NONE) come_cold(fate, p, s, ports, now, second);
    else if (s->flags & SYN) come_call(fate, p, s, id, now, second);
    else if (s->flags & RST) come_reset(fate, p, s, id, now, second);
    else if (flows[id].state != WARM) { fate->era = flows[id].number; drop(fate, "T_STATE"); }
    else come_stream(fate, p, s, id, now);
}

