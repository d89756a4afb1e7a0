/* Fragments: the datagrams with held fragments, in the order of their first ones. */

struct datagram {
    uint32_t source, target, mark;   /* mark: the protocol and the identification */
    uint32_t next;                   /* in its bucket, or among those that are free */
    uint32_t younger, older;
    uint32_t since, total, reach;    /* total: 0 until the last fragment is held */
    struct chain kept;
    uint8_t front[20];               /* the header of the first fragment at offset 0 */
    bool has_front;
};
static struct pool pieces;
static struct datagram *datagrams;
static uint32_t datagram_buckets[256], datagram_limit, held, free_datagram, youngest, oldest;

static void open_datagrams(uint32_t count, uint32_t cell_count) {
    open_pool(&pieces, cell_count);
    datagrams = room(count, sizeof *datagrams);
    memset(datagram_buckets, 0xff, sizeof datagram_buckets);
    for (uint32_t i = 0; i < count; i++) datagrams[i].next = i + 1 < count ? i + 1 : NONE;
    datagram_limit = count;
    youngest = oldest = NONE;
}

static uint32_t *datagram_bucket(uint32_t source, uint32_t target, uint32_t mark) {
    uint64_t h = ((uint64_t)source << 32 | target) ^ seed;
    h = ((h ^ h >> 29) * 0xbf58476d1ce4e5b9u + mark) * 0x94d049bb133111ebu;
    return &datagram_buckets[h >> 56];
}

static void forget_datagram(uint32_t id) {
    struct datagram *d = &datagrams[id];
    uint32_t *at = datagram_bucket(d->source, d->target, d->mark);
    while (*at != id) at = &datagrams[*at].next;
    *at = d->next;
    if (d->younger == NONE) youngest = d->older; else datagrams[d->younger].older = d->older;
    if (d->older == NONE) oldest = d->younger; else datagrams[d->older].younger = d->younger;
    forget_all(&pieces, &d->kept);
    d->next = free_datagram;
    free_datagram = id;
    held--;
}

static void forget_old(uint32_t now) {
    while (oldest != NONE && (uint64_t)datagrams[oldest].since + FRAG_TIME < now) forget_datagram(oldest);
}

static uint32_t begin_datagram(uint32_t source, uint32_t target, uint32_t mark, uint32_t now) {
    uint32_t id = free_datagram, *bucket = datagram_bucket(source, target, mark);
    free_datagram = datagrams[id].next;
    datagrams[id] = (struct datagram){.source = source, .target = target, .mark = mark,
                                      .next = *bucket, .younger = NONE, .older = youngest,
                                      .since = now, .kept = NO_CELLS};
    *bucket = id;
    if (youngest == NONE) oldest = id; else datagrams[youngest].younger = id;
    youngest = id;
    held++;
    return id;
}

/* Takes a fragment: it is held or dropped, or its datagram is complete and replaces it. */
static bool join(struct fate *fate, struct packet *p, uint32_t now) {
    uint8_t *head = p->octets;
    uint32_t from = get16(head + 6) % 8192 * 8, to = from + (uint32_t)p->size;
    uint32_t mark = (uint32_t)head[9] << 16 | get16(head + 4);
    bool more = get16(head + 6) & 0x2000;
    if (from > 0 && get16(head + 6) & 0x4000) { drop(fate, "F_DF"); return false; }
    if (p->size == 0) { drop(fate, "F_EMPTY"); return false; }
    if (more && p->size % 8) { drop(fate, "F_ALIGN"); return false; }
    if (to > 65515) { drop(fate, "F_BIG"); return false; }
    uint32_t source = get32(head + 12), target = get32(head + 16), id = *datagram_bucket(source, target, mark);
    while (id != NONE && (datagrams[id].source != source || datagrams[id].target != target ||
                          datagrams[id].mark != mark))
        id = datagrams[id].next;
    if (id == NONE && held == datagram_limit) { drop(fate, "F_MANY"); return false; }
    if (!fits(&pieces, id == NONE ? &NO_CELLS : &datagrams[id].kept, from, to)) { drop(fate, "F_ROOM"); return false; }
    if (id == NONE) id = begin_datagram(source, target, mark, now);
    struct datagram *d = &datagrams[id];
    bool past = d->total && to > d->total, other = !more && ((d->total && to != d->total) || to < d->reach);
    if (past || other) { forget_datagram(id); drop(fate, "F_END"); return false; }
    if (settle(&pieces, &d->kept, from, to, p->message)) { forget_datagram(id); drop(fate, "F_CLASH"); return false; }
    if (!more) d->total = to;
    if (to > d->reach) d->reach = to;
    if (from == 0 && !d->has_front) { memcpy(d->front, head, 20); d->has_front = true; }
    if (d->total == 0 || d->kept.octets != d->total) {
        drop(fate, "F_HELD");
        fate->held = true;
        return false;
    }
    copy_out(&pieces, &d->kept, p->message, d->total);
    memcpy(head, d->front, 20);
    put16(head + 6, get16(head + 6) & 0x4000);
    p->size = d->total;
    p->rewritten = true;
    forget_datagram(id);
    return true;
}
