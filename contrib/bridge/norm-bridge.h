/* What the parts of norm-bridge share: the options, the two interfaces, and the workers. */
#pragma once
#define _GNU_SOURCE
#include "norm.h"
#include <errno.h>
#include <linux/if_packet.h>
#include <poll.h>
#include <stdatomic.h>
#include <stdio.h>
#include <stdlib.h>
#include <string.h>
#include <sys/socket.h>
#include <time.h>
#include <unistd.h>

enum { SIDES = 2, FATES = NORM_TRUNCATED + 1, VERDICTS = NORM_DROP + 1, JOBS = 64 };
/* Frames that are read or sent at once, and octets of a frame at most. */
enum { BATCH = 64, LONGEST = 65549, COPIES = 1 << 20 };
/* What is counted: of each side (frames by fate first), of norm (verdicts first), and of files. */
enum { RECEIVED, FATE, SENT = FATE + FATES, FAILED, KERNEL, COUNTS };
enum { WROTE, VERDICT, MICROSECONDS = VERDICT + VERDICTS, LOST = 0 };
enum { OF_NORM = SIDES, OF_FILES, COUNTED };
enum { KEPT_IN, KEPT_OUT, KEPT_REPORT, KINDS, SETS = 2 };

/* A counter that one thread adds to, but for that of lost frames. */
typedef _Atomic uint64_t count;
#define GET(counter) atomic_load_explicit(&(counter), memory_order_relaxed)
#define ADD(counter, n) atomic_store_explicit(&(counter), GET(counter) + (n), memory_order_relaxed)

/* A worker's socket on an interface: its receive ring, and the frames that leave by it. */
struct port {
    int socket;
    unsigned char *ring;
    size_t slot;
    unsigned slots, next, filled;
    struct mmsghdr heads[BATCH];
    struct iovec parts[BATCH];
    /* The send queue was full for as long as it is waited for, and nothing was sent since. */
    bool stuck;
};

/* A frame that was read, and the engine's answer to it. */
struct taken {
    struct norm_arrival arrival;
    const uint8_t *octets;
    size_t size;
    struct norm_answer answer;
};

/* Files that begin and end together, of --keep or the report, and what is to be written. */
struct kept {
    const char *name;
    int first;
    atomic_uint_fast64_t frames;
    /* Nothing is kept until new files begin, once all before is written. */
    atomic_bool behind;
    bool open;
    uint64_t done;
    unsigned part;
    int64_t since, retry;
    char run[32];
    /* A ring holds what its worker put from `tail` to `head`, and to `end` a part of a frame. */
    struct file {
        uint8_t *ring;
        size_t end;
        atomic_size_t head, tail;
        int fd;
        uint64_t size;
        char path[4096];
    } files[KINDS];
};

/* A thread with an engine, for a part of the hosts inside. */
struct worker {
    int number;
    struct norm_handle engine;
    uint8_t first_line[64];
    size_t first_size;
    bool broken;
    struct port ports[SIDES];
    /* Copies of the frames that leave changed, until they are sent. */
    uint8_t copies[COPIES];
    size_t copied;
    count counts[COUNTED][COUNTS];
    struct kept kept[SETS];
};

extern struct options {
    const char *user, *report, *keep;
    bool strict, without_norm;
    uint64_t rotate, every, jobs;
} options;
extern struct side {
    const char *name;
    unsigned index, mtu;
    bool up;
} sides[SIDES];
extern struct worker workers[JOBS];

/* norm-bridge.c: `fail` ends the program; `end_bridge` has the main thread end it, and why. */
#define fail(status, ...) (say(__VA_ARGS__), exit(status))
#define end_bridge(status, ...) (is_first_end(status) ? say(__VA_ARGS__) : (void)0)
extern atomic_uint ready, stopping, ended, written;
void say(const char *form, ...) __attribute__((format(printf, 1, 2)));
bool is_first_end(int status), is_ending(void);
void wait_once(void);
uint64_t now_of(clockid_t clock);

/* words.c: the words that engines are opened with have one space between each two. */
extern char *engine_words;
void read_words(int count, char **words), make_engine_words(void);

/* links.c: `set_filters` has sockets receive nothing, or each worker's the frames of its hosts. */
void open_sides(void), warn_of_sides(void), set_filters(bool receive);

/* keep.c: a frame that was judged or, without one, an engine's end. */
void keep(struct worker *w, const struct taken *read);
void open_kept(void);
/* What threads run: worker.c and keep.c. */
void *work(void *worker), *write_kept(void *unused);
