/*
 * normcap: norm over a capture file, by the library.
 *
 * usage: normcap IN OUT "run [OPTION..] IN OUT PREFIX.."
 *
 * IN is a classic pcap, and OUT a file that does not exist. OUT, the report on standard output and
 * the status are those of `norm run`, but that no `stop` line comes with the statuses 2, 6 and 8.
 */
#include "norm.h"
#include <stdio.h>
#include <stdlib.h>
#include <string.h>

enum { HEAD = 24, RECORD = 16, LONGEST = 262144 };

static struct norm_handle handle; /* All octets are zero: it is closed. */
static FILE *in, *out;
static bool big;              /* Numbers of IN have their highest octet first. */
static unsigned long long at; /* the offset in IN of the head or record that is read */

static uint32_t get(const uint8_t *from) {
    uint32_t n = 0;
    for (int i = 0; i < 4; i++) n = n << 8 | from[big ? i : 3 - i];
    return n;
}

static void put(uint8_t *to, uint32_t n) {
    for (int i = 0; i < 4; i++, n >>= 8) to[big ? 3 - i : i] = (uint8_t)n;
}

/* Ends the program, unless the call did what it says. */
static void must(uint32_t result) {
    if (result != NORM_DONE) fprintf(stderr, "normcap: norm.h answers %u\n", result);
    if (result != NORM_DONE) exit(result == NORM_NO_MEMORY ? 8 : 2);
}

/* Reads the head of IN, and makes that of OUT of it. Returns NULL, or the word of `stop`. */
static const char *read_head(uint8_t *head, struct norm_gate *gate) {
    if (!in || fread(head, 1, HEAD, in) != HEAD) return "cut";
    big = head[0] == 0xa1;
    uint32_t magic = get(head), link = get(head + 20);
    if (magic != 0xa1b2c3d4 && magic != 0xa1b23c4d) return "magic";
    if (get(head + 4) != (big ? 0x20004 : 0x40002)) return "version";
    if (link != 1 && link != 101) return "link";
    gate->frames = link == 1 ? NORM_ETHERNET : NORM_RAW;
    memset(head + 8, 0, 8);
    put(head + 16, LONGEST);
    at = HEAD;
    return NULL;
}

/* Judges a record, and writes its line and its frames. Returns false after 2^32 - 1 records. */
static bool judge(const uint8_t *head, const uint8_t *octets, uint32_t length) {
    static uint8_t copy[65549], line[400];
    struct norm_arrival arrival = {.seconds = get(head), .fraction = get(head + 4), .original = get(head + 12)};
    struct norm_answer answer;
    size_t size;
    uint32_t result = norm_step(&handle, &arrival, octets, length, &answer);
    if (result == NORM_FULL) return false;
    must(result);
    for (uint32_t i = 0; i < answer.frames; i++) {
        struct norm_frame frame = {.size = length};
        if (!answer.as_read) must(norm_frame(&handle, i, copy, sizeof copy, &frame));
        uint8_t numbers[RECORD];
        memcpy(numbers, head, 8);
        put(numbers + 8, (uint32_t)frame.size);
        put(numbers + 12, (uint32_t)frame.size);
        fwrite(numbers, 1, RECORD, out);
        fwrite(answer.as_read ? octets : copy, 1, frame.size, out);
    }
    must(norm_line(&handle, 0, line, sizeof line, &size));
    fwrite(line, 1, size, stdout);
    return true;
}

/* Judges all records. Returns NULL at the end of IN, or the word of `stop`. */
static const char *judge_all(void) {
    static uint8_t octets[LONGEST];
    uint8_t head[RECORD];
    for (size_t size; (size = fread(head, 1, RECORD, in)) > 0;) {
        if (size < RECORD) return "cut";
        uint32_t length = get(head + 8);
        if (length > LONGEST) return "long";
        if (fread(octets, 1, length, in) < length) return "cut";
        if (!judge(head, octets, length)) return "many";
        at += RECORD + length;
    }
    return NULL;
}

int main(int count, char **words) {
    uint8_t head[HEAD], text[64];
    size_t size;
    struct norm_gate gate = {.frames = NORM_ETHERNET};
    if (count != 4) return fputs("usage: normcap IN OUT \"run [OPTION..] IN OUT PREFIX..\"\n", stderr), 2;
    in = fopen(words[1], "rb");
    const char *fault = read_head(head, &gate);
    must(norm_open(&handle, &gate, (uint8_t *)words[3], strlen(words[3])));
    if (!(out = fopen(words[2], "wbx"))) return perror(words[2]), 6;
    must(norm_first(&handle, text, sizeof text, &size));
    fwrite(text, 1, size, stdout);
    if (!fault) {
        fwrite(head, 1, HEAD, out);
        fault = judge_all();
    }
    if (!in || ferror(in)) fault = "read";
    if (ferror(out) | fclose(out)) return perror(words[2]), 6;
    must(norm_last(&handle, text, sizeof text, &size));
    if (fault) size = (size_t)sprintf((char *)text, "stop %s %llu\n", fault, at);
    norm_close(&handle);
    if (fwrite(text, 1, size, stdout) < size || fflush(stdout)) return perror("the report"), 7;
    return !fault ? 0 : !strcmp(fault, "read") ? 5 : !strcmp(fault, "cut") ? 4 : 3;
}
