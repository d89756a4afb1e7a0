/* A packet under way, and what becomes of it. */

struct packet {
    uint8_t *octets, *message;       /* the IPv4 header, and what it carries */
    size_t size;                     /* of the message */
    bool inward, raised, rewritten;  /* the TTL was raised; the segment was rewritten */
};

struct fate {
    char rules[160], ends[160];      /* as the report has them */
    size_t length, ends_length;
    int frames;                      /* 0: dropped */
    bool fixed, held;
    uint32_t era, begun;             /* 0: none */
};

static void name(struct fate *fate, const char *rule) {
    size_t size = strlen(rule);
    fate->rules[fate->length++] = ' ';
    memcpy(fate->rules + fate->length, rule, size);
    fate->length += size;
}

static void drop(struct fate *fate, const char *rule) {
    fate->length = 0;
    name(fate, rule);
    fate->frames = 0;
}

static void mend(struct fate *fate, const char *rule) {
    name(fate, rule);
    fate->fixed = true;
}

static size_t digits(char *to, uint64_t number) {
    char back[20];
    size_t count = 0;
    do back[count++] = (char)('0' + number % 10); while (number /= 10);
    for (size_t i = 0; i < count; i++) to[i] = back[count - 1 - i];
    return count;
}
