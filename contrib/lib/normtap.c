/*
 * normtap: norm between two Ethernet interfaces, in one thread, by the library.
 *
 * usage: normtap OUTSIDE INSIDE "run [OPTION..] IN OUT PREFIX.."
 *
 * It sends what norm writes, and ARP, until SIGINT, SIGTERM or 2^32 - 1 records. The report goes to
 * standard output. norm-bridge has rings and counts besides, and gives up its rights.
 */
#define _GNU_SOURCE
#include "norm.h"
#include <arpa/inet.h>
#include <linux/if_ether.h>
#include <linux/if_packet.h>
#include <net/if.h>
#include <poll.h>
#include <signal.h>
#include <stdio.h>
#include <stdlib.h>
#include <string.h>
#include <sys/socket.h>
#include <time.h>

static struct norm_handle handle; /* All octets are zero: it is closed. */
static struct pollfd sides[2];    /* by the numbers of norm_port */
static volatile sig_atomic_t over;

static void end(int number) { over = number; }

/* Ends the program, unless a call of the system, or one of the library, did what it says. */
static void need(bool done, const char *what) {
    if (!done) exit((perror(what), 1));
}
static void must(uint32_t result) {
    if (result != NORM_DONE) exit((fprintf(stderr, "normtap: norm.h answers %u\n", result), 2));
}

/* Prints the first or the last line of the report. */
static void print(uint32_t (*line)(struct norm_handle *, uint8_t *, size_t, size_t *)) {
    uint8_t text[64];
    size_t size;
    must(line(&handle, text, sizeof text, &size));
    fwrite(text, 1, size, stdout);
}

static int open_interface(const char *name) {
    struct sockaddr_ll at = {.sll_family = AF_PACKET, .sll_protocol = htons(ETH_P_ALL)};
    at.sll_ifindex = (int)if_nametoindex(name);
    struct packet_mreq all = {.mr_ifindex = at.sll_ifindex, .mr_type = PACKET_MR_PROMISC};
    int one = 1, fd = socket(AF_PACKET, SOCK_RAW, 0);
    need(at.sll_ifindex > 0 && fd >= 0, name);
    need(!setsockopt(fd, SOL_PACKET, PACKET_IGNORE_OUTGOING, &one, sizeof one), name);
    need(!setsockopt(fd, SOL_PACKET, PACKET_AUXDATA, &one, sizeof one), name);
    need(!setsockopt(fd, SOL_PACKET, PACKET_ADD_MEMBERSHIP, &all, sizeof all), name);
    need(!bind(fd, (struct sockaddr *)&at, sizeof at), name);
    return fd;
}

/* Reads a frame of this side. Returns how many of its octets are in the buffer. */
static size_t receive(uint32_t side, uint8_t *octets, size_t room, struct norm_arrival *arrival) {
    _Alignas(struct cmsghdr) uint8_t more[CMSG_SPACE(sizeof(struct tpacket_auxdata))];
    struct iovec part = {octets, room};
    struct msghdr message = {.msg_iov = &part, .msg_iovlen = 1, .msg_control = more, .msg_controllen = sizeof more};
    struct tpacket_auxdata aux = {0};
    struct timespec now;
    ssize_t length = recvmsg(sides[side].fd, &message, MSG_TRUNC); /* that on the link */
    need(length >= 0, "recvmsg");
    clock_gettime(CLOCK_REALTIME, &now);
    if (CMSG_FIRSTHDR(&message)) memcpy(&aux, CMSG_DATA(CMSG_FIRSTHDR(&message)), sizeof aux);
    uint32_t tag = aux.tp_status & TP_STATUS_VLAN_VALID ? 65536 + (uint32_t)aux.tp_vlan_tci : 0;
    *arrival = (struct norm_arrival){side, tag, (uint32_t)now.tv_sec, (uint32_t)now.tv_nsec, (uint32_t)length};
    return (size_t)length < room ? (size_t)length : room;
}

/* Judges a frame of this side, and sends what is written. What an interface refuses is lost. */
static void pass(uint32_t side) {
    static uint8_t octets[65549], copy[65549], line[400];
    struct norm_arrival arrival;
    struct norm_answer answer;
    size_t size, length = receive(side, octets, sizeof octets, &arrival);
    must(norm_step(&handle, &arrival, octets, length, &answer));
    for (uint32_t i = 0; i < answer.frames; i++) {
        struct norm_frame frame = {length, answer.port};
        if (!answer.as_read) must(norm_frame(&handle, i, copy, sizeof copy, &frame));
        send(sides[frame.port].fd, answer.as_read ? octets : copy, frame.size, 0);
    }
    for (uint32_t i = 0; i < answer.records; i++) {
        must(norm_line(&handle, i, line, sizeof line, &size));
        fwrite(line, 1, size, stdout);
    }
}

int main(int count, char **words) {
    struct norm_gate gate = {.frames = NORM_PORTS};
    if (count != 4) return fputs("usage: normtap OUTSIDE INSIDE \"run [OPTION..] IN OUT PREFIX..\"\n", stderr), 2;
    must(norm_open(&handle, &gate, (uint8_t *)words[3], strlen(words[3])));
    print(norm_first);
    for (int i = 0; i < 2; i++) sides[i] = (struct pollfd){open_interface(words[1 + i]), POLLIN, 0};
    signal(SIGINT, end);
    signal(SIGTERM, end);
    while (!over)
        if (poll(sides, 2, -1) > 0)
            for (uint32_t i = 0; i < 2; i++)
                if (sides[i].revents) pass(i);
    print(norm_last);
    norm_close(&handle);
    return 0;
}
