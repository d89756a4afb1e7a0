/* A worker: the path of a frame from a ring to the engine, and from there to an interface. */
#include "norm-bridge.h"

/* How often and when a full send queue is tried again, and how long frames are waited for. */
enum { SEND_TRIES = 25, SEND_PAUSE = 200000, WAIT_MILLISECONDS = 50 };

atomic_uint ready, stopping, ended;
static atomic_bool warned;

/* Sends frames by a port. A full queue is waited for once, 5 ms; then frames have failed. */
static void flush(struct worker *w, int k) {
    struct port *to = &w->ports[k];
    for (unsigned done = 0, tries = 0; done < to->filled;) {
        int sent = sendmmsg(to->socket, to->heads + done, to->filled - done, MSG_DONTWAIT);
        if (sent > 0) {
            ADD(w->counts[k][SENT], (uint64_t)sent);
            done += (unsigned)sent;
            to->stuck = false;
        } else if ((errno == EAGAIN || errno == ENOBUFS) && !to->stuck) {
            to->stuck = ++tries > SEND_TRIES;
            nanosleep(&(struct timespec){0, SEND_PAUSE}, NULL);
        } else if (errno != EINTR) {
            ADD(w->counts[k][FAILED], 1);
            done++;
        }
    }
    to->filled = 0;
}

static void flush_all(struct worker *w) {
    for (int k = 0; k < SIDES; k++) flush(w, k);
    w->copied = 0;
}

/* Opens the worker's engine, in place of the one that it has. */
static bool open_engine(struct worker *w) {
    static const struct norm_gate gate = {NORM_PORTS};
    uint32_t result = options.without_norm ? NORM_DONE
                      : norm_open(&w->engine, &gate, (const uint8_t *)engine_words, strlen(engine_words));
    if (result == NORM_NO_MEMORY) end_bridge(1, "memory for an engine could not be allocated");
    else if (result != NORM_DONE) end_bridge(2, "norm refuses its words: %s", engine_words);
    else if (w->first_size == 0) norm_first(&w->engine, w->first_line, sizeof w->first_line, &w->first_size);
    return result == NORM_DONE;
}

/* Answers as if norm passed each frame that it could judge. */
static void pass_by(struct taken *read) {
    const struct norm_arrival *arrival = &read->arrival;
    uint32_t fate = arrival->tag ? NORM_UNJUDGED : arrival->original > read->size ? NORM_TRUNCATED : NORM_JUDGED;
    bool passes = fate == NORM_JUDGED;
    read->answer = (struct norm_answer){.fate = fate, .frames = passes, .port = !arrival->port, .as_read = passes};
}

/* Judges a frame. Returns false if the bridge ends. A new engine follows one that is full. */
static bool judge(struct worker *w, struct taken *read) {
    uint32_t result = norm_step(&w->engine, &read->arrival, read->octets, read->size, &read->answer);
    if (result == NORM_FULL) {
        say("engine %d is full: a new one follows", w->number);
        keep(w, NULL);
        if (!open_engine(w)) return false;
        result = norm_step(&w->engine, &read->arrival, read->octets, read->size, &read->answer);
    }
    return result == NORM_DONE;
}

/* Has a frame leave: the one that was read, or the one of this index that is written for it. */
static bool leave(struct worker *w, const struct taken *read, uint32_t index) {
    struct norm_frame frame = {read->size, read->answer.port};
    const uint8_t *octets = read->octets;
    if (!read->answer.as_read) {
        if (w->copied + LONGEST > COPIES) flush_all(w);
        octets = w->copies + w->copied;
        if (norm_frame(&w->engine, index, w->copies + w->copied, LONGEST, &frame) != NORM_DONE) return false;
        w->copied += frame.size;
    }
    struct port *to = &w->ports[frame.port];
    if (to->filled == BATCH) flush(w, (int)frame.port);
    to->parts[to->filled] = (struct iovec){(void *)octets, frame.size};
    to->heads[to->filled].msg_hdr = (struct msghdr){.msg_iov = &to->parts[to->filled], .msg_iovlen = 1};
    to->filled++;
    return true;
}

/* Takes a frame from a ring. Returns false if the engine has failed. */
static bool take(struct worker *w, uint32_t k, const struct tpacket2_hdr *slot) {
    uint32_t tag = slot->tp_status & TP_STATUS_VLAN_VALID ? 65536 + slot->tp_vlan_tci : 0;
    struct taken read = {.arrival = {k, tag, slot->tp_sec, slot->tp_nsec, slot->tp_len},
                         .octets = (const uint8_t *)slot + slot->tp_mac, .size = slot->tp_snaplen};
    bool unlike = slot->tp_status & TP_STATUS_CSUMNOTREADY || slot->tp_len > slot->tp_snaplen;
    if (unlike && !warned && !atomic_exchange(&warned, true))
        say("warning: frames of %s were merged or lack checksums, here or at the senders: "
            "ethtool -K DEV gro off lro off gso off tso off tx off", sides[k].name);
    ADD(w->counts[k][RECEIVED], 1);
    if (options.without_norm) pass_by(&read);
    else if (!judge(w, &read)) return false;
    ADD(w->counts[k][FATE + read.answer.fate], 1);
    for (uint32_t i = 0; i < read.answer.frames; i++)
        if (!leave(w, &read, i)) return false;
    if (read.answer.fate != NORM_JUDGED) return true;
    ADD(w->counts[OF_NORM][WROTE], read.answer.frames);
    ADD(w->counts[OF_NORM][VERDICT + read.answer.verdict], read.answer.records);
    keep(w, &read);
    return true;
}

/* Passes what a ring has, a batch at most. Returns whether it had something. */
static bool pass(struct worker *w, uint32_t k) {
    struct port *from = &w->ports[k];
    struct tpacket2_hdr *slots[BATCH];
    unsigned got = 0;
    for (; got < BATCH && got < from->slots && !w->broken; got++) {
        slots[got] = (void *)(from->ring + (from->next + got) % from->slots * from->slot);
        if (!(__atomic_load_n(&slots[got]->tp_status, __ATOMIC_ACQUIRE) & TP_STATUS_USER)) break;
        w->broken = !take(w, k, slots[got]);
    }
    flush_all(w);
    for (uint64_t now = now_of(CLOCK_REALTIME), i = 0; i < got; i++) {
        uint64_t then = slots[i]->tp_sec * UINT64_C(1000000000) + slots[i]->tp_nsec;
        ADD(w->counts[OF_NORM][MICROSECONDS], now > then ? (now - then) / 1000 : 0);
        __atomic_store_n(&slots[i]->tp_status, TP_STATUS_KERNEL, __ATOMIC_RELEASE);
    }
    from->next = (from->next + got) % from->slots;
    return got > 0;
}

/* Waits until a ring has something, or some time has passed. */
static void wait_for_frames(const struct worker *w) {
    struct pollfd waits[] = {{w->ports[0].socket, POLLIN, 0}, {w->ports[1].socket, POLLIN, 0}};
    poll(waits, SIDES, WAIT_MILLISECONDS);
    /* A link that went down is an error until it is read. */
    for (int k = 0; k < SIDES; k++)
        if (waits[k].revents & POLLERR) recv(waits[k].fd, &(char){0}, 1, MSG_DONTWAIT);
}

/* Passes frames until the bridge ends and the rings are empty. */
void *work(void *user) {
    struct worker *w = user;
    w->broken = !open_engine(w);
    atomic_fetch_add(&ready, 1);
    while (!w->broken) {
        bool last = atomic_load(&stopping), out = pass(w, NORM_OUTSIDE), in = pass(w, NORM_INSIDE);
        if (!out && !in && last) break;
        if (!out && !in) wait_for_frames(w);
    }
    if (w->broken) end_bridge(1, "engine %d has failed", w->number);
    else keep(w, NULL);
    norm_close(&w->engine);
    atomic_fetch_add(&ended, 1);
    return NULL;
}
