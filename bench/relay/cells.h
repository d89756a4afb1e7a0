/* Octets by offset, in cells of 256 that are linked by block. */

struct cell { uint32_t next; uint64_t block, known[4]; uint8_t octets[CELL]; };
/* The first `made` cells are in chains or in the free list; the others were never used. */
struct pool { struct cell *cells; uint32_t spare, made, free; };

/* The cells of one stream or datagram, by block; `near` is the one that was used last. */
struct chain { uint32_t first, near, count; uint64_t octets; };

static const struct chain NO_CELLS = {UINT32_MAX, UINT32_MAX, 0, 0};

static void *room(size_t count, size_t size) {
    void *made = calloc(count, size);
    if (!made) fail(8);
    return made;
}

static void open_pool(struct pool *pool, uint32_t count) {
    pool->cells = room(count, sizeof *pool->cells);
    pool->spare = NONE;
    pool->made = 0;
    pool->free = count;
}

static void forget_first(struct pool *pool, struct chain *c) {
    uint32_t id = c->first;
    c->first = pool->cells[id].next;
    if (c->near == id) c->near = NONE;
    pool->cells[id].next = pool->spare;
    pool->spare = id;
    pool->free++;
    c->count--;
}

static void forget_all(struct pool *pool, struct chain *c) {
    while (c->first != NONE) forget_first(pool, c);
}

/* The cell of a block, or the one after which it belongs, NONE at the front. */
static bool seek(const struct pool *pool, const struct chain *c, uint64_t block, uint32_t *at) {
    const struct cell *cells = pool->cells;
    uint32_t after = c->near != NONE && cells[c->near].block <= block ? c->near : NONE;
    if (after != NONE && cells[after].block == block) { *at = after; return true; }
    uint32_t id = after == NONE ? c->first : cells[after].next;
    while (id != NONE && cells[id].block < block) { after = id; id = cells[id].next; }
    bool there = id != NONE && cells[id].block == block;
    *at = there ? id : after;
    return there;
}

/* The cell of a block, taken if there is none; a cell is free in this case. */
static struct cell *cell_for(struct pool *pool, struct chain *c, uint64_t block) {
    struct cell *cells = pool->cells;
    uint32_t at;
    if (!seek(pool, c, block, &at)) {
        uint32_t id = pool->spare;
        if (id != NONE) pool->spare = cells[id].next;
        else id = pool->made++;
        pool->free--;
        c->count++;
        cells[id].block = block;
        memset(cells[id].known, 0, sizeof cells[id].known);
        cells[id].next = at == NONE ? c->first : cells[at].next;
        if (at == NONE) c->first = id; else cells[at].next = id;
        at = id;
    }
    c->near = at;
    return &cells[at];
}

/* Whether the cells that these octets need are free. */
static bool fits(const struct pool *pool, const struct chain *c, uint64_t lo, uint64_t hi) {
    if (lo >= hi) return true;
    uint64_t first = lo / CELL, last = (hi - 1) / CELL;
    if (last - first + 1 <= pool->free) return true;
    uint32_t missing = 0, at;
    for (uint64_t block = first; block <= last; block++) missing += !seek(pool, c, block, &at);
    return missing <= pool->free;
}

/* The bits of a cell's word from one offset to before another. */
static uint64_t bits(unsigned word, unsigned from, unsigned to) {
    unsigned lo = word * 64 > from ? 0 : from - word * 64, hi = to >= word * 64 + 64 ? 64 : to - word * 64;
    return (hi == 64 ? UINT64_MAX : (UINT64_C(1) << hi) - 1) & (UINT64_MAX << lo);
}

/* Keeps the octets that are first at their offsets, and replaces others by the kept ones; returns
   whether one differed. */
static bool settle_piece(struct chain *c, struct cell *cell, unsigned from, unsigned to, uint8_t *octets) {
    bool changed = false;
    for (unsigned word = from / 64; word <= (to - 1) / 64; word++) {
        unsigned lo = word * 64 > from ? word * 64 : from, hi = word * 64 + 64 < to ? word * 64 + 64 : to;
        uint64_t asked = bits(word, from, to), known = cell->known[word] & asked;
        uint8_t *kept = cell->octets + lo, *own = octets + (lo - from);
        if (known == 0) {
            memcpy(kept, own, hi - lo);
            c->octets += hi - lo;
        } else if (known == asked) {
            if (memcmp(kept, own, hi - lo)) { memcpy(own, kept, hi - lo); changed = true; }
        } else {
            for (unsigned i = 0; i < hi - lo; i++) {
                if (known >> (lo + i - word * 64) & 1) { changed |= own[i] != kept[i]; own[i] = kept[i]; }
                else { kept[i] = own[i]; c->octets++; }
            }
        }
        cell->known[word] |= asked;
    }
    return changed;
}

static bool settle(struct pool *pool, struct chain *c, uint64_t lo, uint64_t hi, uint8_t *octets) {
    bool changed = false;
    while (lo < hi) {
        uint64_t end = (lo / CELL + 1) * CELL < hi ? (lo / CELL + 1) * CELL : hi;
        changed |= settle_piece(c, cell_for(pool, c, lo / CELL), (unsigned)(lo % CELL),
                                (unsigned)(end - lo / CELL * CELL), octets);
        octets += end - lo;
        lo = end;
    }
    return changed;
}

static void forget_below(struct pool *pool, struct chain *c, uint64_t place) {
    while (c->first != NONE && pool->cells[c->first].block < place / CELL) forget_first(pool, c);
    if (c->first == NONE || pool->cells[c->first].block != place / CELL || place % CELL == 0) return;
    struct cell *cell = &pool->cells[c->first];
    uint64_t left = 0;
    for (unsigned word = 0; word < 4; word++) {
        if (word * 64 < place % CELL) cell->known[word] &= ~bits(word, 0, (unsigned)(place % CELL));
        left |= cell->known[word];
    }
    if (left == 0) forget_first(pool, c);
}

/* The front of a chain whose octets are all present, copied out. */
static void copy_out(const struct pool *pool, const struct chain *c, uint8_t *to, size_t size) {
    for (uint32_t id = c->first; size > 0; id = pool->cells[id].next) {
        size_t part = size < CELL ? size : CELL;
        memcpy(to, pool->cells[id].octets, part);
        to += part;
        size -= part;
    }
}
