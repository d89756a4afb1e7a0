/*
 * norm as a library: the proved engine between two ports, one frame after another. docs/EMBED.md
 * has three programs that use it.
 *
 * What C owes, and nothing checks. A handle begins with all octets zero; C reads and changes
 * nothing in it, and copies none. A handle is given to one call at a time, on the thread that
 * opened it, and to none from a signal handler or a forked child. No pointer is null, also with a
 * length of 0. A pointer to octets is followed by their number. The buffers of one call do not
 * overlap. malloc, realloc and free are those of one allocator.
 *
 * Each call but norm_close returns a norm_result. Of any other than NORM_DONE the page of the call
 * says what it leaves as it was; nothing is written to a buffer or a struct then.
 */
#ifndef NORM_H
#define NORM_H
#include <stdbool.h>
#include <stddef.h>
#include <stdint.h>

#ifdef __cplusplus
extern "C" {
#endif

enum norm_result {
    NORM_DONE,      /* The call did what it says. */
    NORM_CLOSED,    /* The handle has no engine. */
    NORM_NO_MEMORY, /* Memory could not be allocated. */
    NORM_WORDS,     /* The words are not those of a run: run OPTION* IN OUT PREFIX+ */
    NORM_UNFIT,     /* The words ask for --both or --inside, which one engine does not do. */
    NORM_GATE,      /* A setting of the gate has no such value. */
    NORM_PORT,      /* There is no such port. */
    NORM_FULL,      /* The engine has judged 2^32 - 1 records: open it again. */
    NORM_NO_INDEX,  /* The newest frame has no such record, or no such frame. */
    NORM_NO_ROOM,   /* The buffer is too small. */
};

/* What is around the engine. All zero: Ethernet from two ports. */
struct norm_gate {
    uint32_t frames; /* a norm_frames */
};

enum norm_frames {
    NORM_PORTS,    /* Frames of Ethernet, each from one of two ports. */
    NORM_ETHERNET, /* Records of a capture of Ethernet: no port is known, and each is judged. */
    NORM_RAW,      /* Records of a capture of IPv4 packets without link header. */
};

/* The ports. A frame of a capture has none, and its port is not read. */
enum norm_port {
    NORM_OUTSIDE, /* of the untrusted network */
    NORM_INSIDE,  /* of the protected hosts */
    NORM_NOWHERE, /* A frame that is written leaves by no port: ARP of a capture. */
};

/* How a frame arrived. */
struct norm_arrival {
    uint32_t port;     /* a norm_port: NORM_OUTSIDE or NORM_INSIDE */
    uint32_t tag;      /* 0, or 65536 plus the tag (TCI) that a card took off the frame */
    uint32_t seconds;  /* the time of the frame */
    uint32_t fraction; /* nanoseconds; of a capture in microseconds these */
    uint32_t original; /* octets that the frame had on the link */
};

/* What becomes of a frame. */
enum norm_fate {
    NORM_JUDGED,    /* The engine has judged it: it is a record. */
    NORM_FORGED,    /* Its source, or the address by which ARP is judged, is on the other side. */
    NORM_CROSSES,   /* ARP of IPv4 over Ethernet, of its own side. It leaves by the other port. */
    NORM_UNJUDGED,  /* Neither IPv4 nor such ARP, or tagged. It does not leave. */
    NORM_TOO_LONG,  /* It has more than 65,549 octets. It does not leave. */
    NORM_TRUNCATED, /* It had more octets on the link than are given. It does not leave. */
};

enum norm_verdict { NORM_PASS, NORM_FIX, NORM_HOLD, NORM_DROP };

/* The answer to a frame. */
struct norm_answer {
    uint32_t fate;    /* a norm_fate */
    uint32_t records; /* records that the engine judged for it: 1 if it is NORM_JUDGED, else 0 */
    uint32_t verdict; /* a norm_verdict, of the last of these records, if there is one */
    uint32_t frames;  /* frames that are written for it, at most 133 */
    uint32_t port;    /* a norm_port, by which its frames leave, if there are any */
    bool as_read;     /* Its one frame is the octets that were given, unchanged. */
};

/* A frame that is written. */
struct norm_frame {
    size_t size;   /* its octets, at most 65,549 */
    uint32_t port; /* a norm_port, by which it leaves */
};

/* An engine in C's hands. */
struct norm_handle {
    bool live;
    uint8_t *at;
};

/*
 * Opens an engine, in place of the one that the handle has, which is closed first. `words` are
 * those of `norm run`, one space between each two, as "run --hops 5 IN OUT 10.0.0.0/8"; IN and OUT
 * are names that nobody opens. Returns DONE, NO_MEMORY, WORDS, UNFIT or GATE; but for DONE the
 * handle is closed. It takes as much memory as `norm run`, and no later call takes any.
 */
uint32_t norm_open(struct norm_handle *handle, const struct norm_gate *gate, const uint8_t *words,
                   size_t length);

/*
 * Judges a frame. The octets are borrowed for this call alone. Returns DONE, CLOSED, PORT or FULL;
 * but for DONE the engine is as it was. Records, lines and frames of the frame before are gone.
 */
uint32_t norm_step(struct norm_handle *handle, const struct norm_arrival *arrival,
                   const uint8_t *frame, size_t length, struct norm_answer *answer);

/*
 * Copies the frame at this index, from 0, that is written for the newest frame; none where its one
 * frame is as_read. Returns DONE, CLOSED, NO_INDEX or NO_ROOM: it needs room for 65,549 octets.
 */
uint32_t norm_frame(struct norm_handle *handle, uint32_t index, uint8_t *into, size_t room,
                    struct norm_frame *frame);

/*
 * Writes the line of the report of the record at this index, from 0, of the newest frame, with its
 * line feed. Returns DONE, CLOSED, NO_INDEX or NO_ROOM: it wants room for 400 octets.
 */
uint32_t norm_line(struct norm_handle *handle, uint32_t record, uint8_t *into, size_t room,
                   size_t *size);

/*
 * Write the first line of the report, and the last one, `end R P`, over all records so far. Both
 * return DONE, CLOSED or NO_ROOM: they want room for 64 octets.
 */
uint32_t norm_first(struct norm_handle *handle, uint8_t *into, size_t room, size_t *size);
uint32_t norm_last(struct norm_handle *handle, uint8_t *into, size_t room, size_t *size);

/* Closes a handle, open or not, and frees its memory. */
void norm_close(struct norm_handle *handle);

#ifdef __cplusplus
}
#endif
#endif
