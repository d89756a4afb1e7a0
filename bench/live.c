/* Sends UDP frames between two network namespaces at a rate, and prints how many arrive, and after
 * which time.
 *
 * live OUTSIDE INSIDE MODE LENGTH RATE SECONDS
 *
 * OUTSIDE and INSIDE are files of the namespaces, each with an interface eth0.
 *
 * MODE is `in` (from the outside), `out`, `both`, or `trip`: the inside sends each frame back. It
 * prints a line for each way: frames sent, frames received within 0.1 seconds of the last one sent,
 * and the 50th, 99th and 99.9th percentile of the time in microseconds. LENGTH is in octets,
 * without the frame check sequence, from 64 on. Each frame has the next one of 256 inside
 * addresses, and right checksums. */
#define _GNU_SOURCE
#include <arpa/inet.h>
#include <errno.h>
#include <fcntl.h>
#include <linux/if_packet.h>
#include <net/ethernet.h>
#include <net/if.h>
#include <poll.h>
#include <pthread.h>
#include <sched.h>
#include <stdint.h>
#include <stdio.h>
#include <stdlib.h>
#include <string.h>
#include <sys/prctl.h>
#include <sys/socket.h>
#include <time.h>
#include <unistd.h>

enum { BATCH = 32, LONGEST = 1514, HOSTS = 256, BUCKETS = 1 << 20, WAIT = 100000000 };

/* OUTSIDE is 198.51.100.3, INSIDE 10.1.0.0 and on. */
static const uint32_t OUTSIDE = 0xc6336403, INSIDE = 0x0a010000, MAGIC = 0x6e6f726d;

/* Addresses of no host, so that the kernels of both hosts drop a frame once it is read: outside,
 * inside. */
static const unsigned char STATIONS[2][6] = {{2, 0, 0, 0, 0, 1}, {2, 0, 0, 0, 0, 2}};

/* What a frame has from its 43rd octet on. The time is in nanoseconds. */
struct mark { uint32_t magic; uint64_t number, sent; } __attribute__((packed));

struct end { int taker, sender; };

struct way {
    struct end *from, *to, *back;
    int inwards, length;
    double rate, seconds;
    uint64_t sent, received;
    _Atomic int done;                       /* the last frame is sent */
    _Atomic uint64_t last;                  /* when */
    uint32_t *times;                        /* of each tenth of a microsecond, how many */
};

/* When this run began: an earlier one may have left frames in the bridge. */
static uint64_t started;

static void fail(const char *what) { perror(what); exit(1); }

static uint64_t now(void) {
    struct timespec t;
    clock_gettime(CLOCK_MONOTONIC, &t);
    return (uint64_t)t.tv_sec * 1000000000 + t.tv_nsec;
}

static int opened(int protocol) {
    int made = socket(AF_PACKET, SOCK_RAW, htons(protocol)), size = 1 << 28, yes = 1;
    struct sockaddr_ll at = {.sll_family = AF_PACKET, .sll_protocol = htons(protocol),
                             .sll_ifindex = if_nametoindex("eth0")};
    if (made < 0 || bind(made, (struct sockaddr *)&at, sizeof at) < 0) fail("eth0");
    setsockopt(made, SOL_SOCKET, protocol ? SO_RCVBUFFORCE : SO_SNDBUFFORCE, &size, sizeof size);
    setsockopt(made, SOL_PACKET, PACKET_QDISC_BYPASS, &yes, sizeof yes);
    return made;
}

/* Opens the sockets of one end in its namespace. */
static void open_end(struct end *end, const char *path) {
    int there = open(path, O_RDONLY);
    if (there < 0 || setns(there, CLONE_NEWNET) < 0) fail(path);
    end->taker = opened(ETH_P_IP);
    end->sender = opened(0);
    close(there);
}

static uint32_t sum(const unsigned char *octets, int count) {
    uint32_t total = 0;
    for (int i = 0; i < count; i++) total += octets[i] << (i % 2 ? 0 : 8);
    return total;
}

static uint16_t folded(uint32_t total) {
    while (total >> 16) total = (total & 65535) + (total >> 16);
    return ~total;
}

static void put16(unsigned char *at, uint16_t value) { at[0] = value >> 8; at[1] = value; }

static void put32(unsigned char *at, uint32_t value) { put16(at, value >> 16); put16(at + 2, value); }

/* A frame without its inside address, its mark and its checksums. */
static void write_frame(const struct way *way, unsigned char *frame) {
    memset(frame, 0, way->length);
    memcpy(frame, STATIONS[way->inwards], 6);
    memcpy(frame + 6, STATIONS[!way->inwards], 6);
    put16(frame + 12, 0x0800);
    frame[14] = 0x45, frame[22] = 64, frame[23] = 17;
    put16(frame + 16, way->length - 14);
    put32(frame + (way->inwards ? 26 : 30), OUTSIDE);
    put16(frame + 34, 7000), put16(frame + 36, 7000);
    put16(frame + 38, way->length - 34);
}

/* The next frame: its inside address, its mark, its checksums. */
static void number_frame(const struct way *way, unsigned char *frame, uint64_t number, uint64_t time) {
    struct mark mark = {MAGIC, number, time};
    put32(frame + (way->inwards ? 30 : 26), INSIDE + number % HOSTS);
    memcpy(frame + 42, &mark, sizeof mark);
    put16(frame + 24, 0), put16(frame + 40, 0);
    put16(frame + 24, folded(sum(frame + 14, 20)));
    uint16_t check = folded(sum(frame + 26, 16 + sizeof mark) + 17 + way->length - 34);
    put16(frame + 40, check ? check : 65535);
}

/* Messages for a batch of frames, one buffer each. */
static void batch(struct mmsghdr *messages, struct iovec *parts, unsigned char (*frames)[LONGEST], int length) {
    memset(messages, 0, BATCH * sizeof *messages);
    for (int i = 0; i < BATCH; i++) {
        parts[i] = (struct iovec){frames[i], length};
        messages[i].msg_hdr.msg_iov = &parts[i];
        messages[i].msg_hdr.msg_iovlen = 1;
    }
}

static void *send_all(void *given) {
    struct way *way = given;
    unsigned char frames[BATCH][LONGEST];
    struct mmsghdr messages[BATCH];
    struct iovec parts[BATCH];
    prctl(PR_SET_TIMERSLACK, 1, 0, 0, 0);
    batch(messages, parts, frames, way->length);
    for (int i = 0; i < BATCH; i++) write_frame(way, frames[i]);
    uint64_t begun = now(), total = way->rate * way->seconds, until = begun + way->seconds * 1e9;
    for (uint64_t time = begun; way->sent < total && time < until + WAIT; time = now()) {
        uint64_t due = (time - begun) * way->rate / 1e9 + 1;
        if (due > total) due = total;
        if (due <= way->sent) {
            uint64_t next = begun + way->sent * 1e9 / way->rate;
            clock_nanosleep(CLOCK_MONOTONIC, TIMER_ABSTIME,
                            &(struct timespec){next / 1000000000, next % 1000000000}, NULL);
            continue;
        }
        int count = due - way->sent < BATCH ? due - way->sent : BATCH;
        for (int i = 0; i < count; i++) number_frame(way, frames[i], way->sent + i, time);
        int gone = sendmmsg(way->from->sender, messages, count, 0);
        if (gone < 0 && errno != ENOBUFS) fail("send");
        way->sent += gone > 0 ? gone : 0;
    }
    way->last = now();
    way->done = 1;
    return NULL;
}

/* Whether the frame is one of this run and way, and its mark. */
static int marked(const struct way *way, const unsigned char *frame, struct mark *mark) {
    memcpy(mark, frame + 42, sizeof *mark);
    uint32_t side = ntohl(*(const uint32_t *)(const void *)(frame + 26)) == OUTSIDE;
    return mark->magic == MAGIC && mark->sent >= started
        && side == (uint32_t)(way->back ? !way->inwards : way->inwards);
}

static void count_frame(struct way *way, const struct mark *mark, uint64_t time) {
    uint64_t tenths = (time - mark->sent) / 100;
    way->received++;
    way->times[tenths < BUCKETS ? tenths : BUCKETS - 1]++;
}

/* Reads what arrives at the end of a way until it is over. */
static void *take_all(void *given) {
    struct way *way = given;
    unsigned char (*frames)[LONGEST] = malloc(BATCH * LONGEST);
    struct mmsghdr messages[BATCH];
    struct iovec parts[BATCH];
    struct mark mark;
    int taker = way->back ? way->back->taker : way->to->taker;
    batch(messages, parts, frames, LONGEST);
    while (!way->done || (way->received < way->sent && now() < way->last + WAIT)) {
        if (poll(&(struct pollfd){taker, POLLIN, 0}, 1, 5) <= 0) continue;
        int count = recvmmsg(taker, messages, BATCH, MSG_DONTWAIT, NULL);
        uint64_t time = now();
        for (int i = 0; i < count; i++)
            if (messages[i].msg_len >= 64 && marked(way, frames[i], &mark)) count_frame(way, &mark, time);
    }
    free(frames);
    return NULL;
}

/* Sends back what arrives: addresses are exchanged, which leaves the checksums right. */
static void *reflect(void *given) {
    struct way *way = given;
    unsigned char (*frames)[LONGEST] = malloc(BATCH * LONGEST), kept[6];
    struct mmsghdr messages[BATCH], answers[BATCH];
    struct iovec parts[BATCH], parts_back[BATCH];
    struct mark mark;
    batch(messages, parts, frames, LONGEST);
    for (;;) {
        poll(&(struct pollfd){way->to->taker, POLLIN, 0}, 1, -1);
        int count = recvmmsg(way->to->taker, messages, BATCH, MSG_DONTWAIT, NULL), back = 0;
        batch(answers, parts_back, frames, LONGEST);
        for (int i = 0; i < count; i++) {
            memcpy(&mark, frames[i] + 42, sizeof mark);
            if (messages[i].msg_len < 64 || mark.magic != MAGIC) continue;
            memcpy(kept, frames[i], 6), memcpy(frames[i], frames[i] + 6, 6), memcpy(frames[i] + 6, kept, 6);
            memcpy(kept, frames[i] + 26, 4), memcpy(frames[i] + 26, frames[i] + 30, 4), memcpy(frames[i] + 30, kept, 4);
            parts_back[back++] = (struct iovec){frames[i], messages[i].msg_len};
        }
        for (int at = 0, gone; at < back &&
             (gone = sendmmsg(way->to->sender, answers + at, back - at, 0)) > 0; at += gone) {}
    }
    return NULL;
}

static double percentile(const struct way *way, double part) {
    uint64_t wanted = part * way->received, seen = 0;
    for (int i = 0; i < BUCKETS; i++)
        if ((seen += way->times[i]) > wanted) return i / 10.0;
    return 0;
}

int main(int count, char **words) {
    if (count != 7) { fprintf(stderr, "usage: live OUTSIDE INSIDE in|out|both|trip LENGTH RATE SECONDS\n"); return 2; }
    struct end outside, inside;
    struct way ways[2];
    pthread_t senders[2], takers[2], mirror;
    int trip = !strcmp(words[3], "trip"), both = !strcmp(words[3], "both");
    int number = both ? 2 : 1, length = atoi(words[4]);
    if (length < 64 || length > LONGEST) return 2;
    started = now();
    open_end(&outside, words[1]);
    open_end(&inside, words[2]);
    for (int i = 0; i < number; i++) {
        int inwards = both ? !i : strcmp(words[3], "out") != 0;
        ways[i] = (struct way){.from = inwards ? &outside : &inside,
                               .to = inwards ? &inside : &outside,
                               .back = trip ? &outside : NULL,
                               .inwards = inwards, .length = length, .rate = atof(words[5]), .seconds = atof(words[6]),
                               .times = calloc(BUCKETS, sizeof(uint32_t))};
    }
    if (trip) pthread_create(&mirror, NULL, reflect, &ways[0]);
    for (int i = 0; i < number; i++) pthread_create(&takers[i], NULL, take_all, &ways[i]);
    for (int i = 0; i < number; i++) pthread_create(&senders[i], NULL, send_all, &ways[i]);
    for (int i = 0; i < number; i++) pthread_join(senders[i], NULL), pthread_join(takers[i], NULL);
    for (int i = 0; i < number; i++)
        printf("%s %llu %llu %.1f %.1f %.1f\n", ways[i].inwards ? "in" : "out",
               (unsigned long long)ways[i].sent, (unsigned long long)ways[i].received,
               percentile(&ways[i], 0.5), percentile(&ways[i], 0.99), percentile(&ways[i], 0.999));
    return 0;
}
