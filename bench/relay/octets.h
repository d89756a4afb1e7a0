/* Octets of files. */

struct end { int fd; size_t at, size; uint8_t octets[BUFFER]; };
static struct end in, out, report = {.fd = 1};

static void fail(int status) { _exit(status); }

static size_t take(uint8_t *to, size_t size) {
    size_t done = 0;
    while (done < size) {
        if (in.at == in.size) {
            ssize_t got = read(in.fd, in.octets, BUFFER);
            if (got < 0) fail(5);
            if (got == 0) break;
            in.at = 0;
            in.size = (size_t)got;
        }
        size_t part = size - done < in.size - in.at ? size - done : in.size - in.at;
        memcpy(to + done, in.octets + in.at, part);
        in.at += part;
        done += part;
    }
    return done;
}

static void write_all(int fd, const uint8_t *from, size_t size) {
    while (size > 0) {
        ssize_t put = write(fd, from, size);
        if (put <= 0) fail(6);
        from += put;
        size -= (size_t)put;
    }
}

static void spill(struct end *to) {
    write_all(to->fd, to->octets, to->size);
    to->size = 0;
}

static void give(struct end *to, const void *from, size_t size) {
    if (BUFFER - to->size < size) spill(to);
    if (size > BUFFER) { write_all(to->fd, from, size); return; }
    memcpy(to->octets + to->size, from, size);
    to->size += size;
}

/* Numbers and checksums. */

static uint32_t get16(const uint8_t *p) { return (uint32_t)p[0] << 8 | p[1]; }
static uint32_t get32(const uint8_t *p) { return get16(p) << 16 | get16(p + 2); }
static void put16(uint8_t *p, uint32_t v) { p[0] = (uint8_t)(v >> 8); p[1] = (uint8_t)v; }
static void put32(uint8_t *p, uint32_t v) { put16(p, v >> 16); put16(p + 2, v); }
static uint32_t low32(const uint8_t *p) {
    return p[0] | (uint32_t)p[1] << 8 | (uint32_t)p[2] << 16 | (uint32_t)p[3] << 24;
}
static void put_low32(uint8_t *p, uint32_t v) { for (int i = 0; i < 4; i++) p[i] = (uint8_t)(v >> (8 * i)); }

/* The sum of the words of these octets and of `extra`, in 16 bits. The words are added as the
   machine reads them (RFC 1071 section 2). */
static uint32_t sum_of(const uint8_t *p, size_t n, uint64_t extra) {
    uint64_t sum = 0;
    uint32_t word, header[5];
    if (n == sizeof header) {
        memcpy(header, p, sizeof header);
        sum = (uint64_t)header[0] + header[1] + header[2] + header[3] + header[4];
    } else {
        size_t i = 0;
        for (; i + 4 <= n; i += 4) { memcpy(&word, p + i, 4); sum += word; }
        if (i < n) { word = 0; memcpy(&word, p + i, n - i); sum += word; }
    }
    while (sum >> 16) sum = (sum & 0xffff) + (sum >> 16);
    sum = ntohs((uint16_t)sum) + extra;
    while (sum >> 16) sum = (sum & 0xffff) + (sum >> 16);
    return (uint32_t)sum;
}

/* The sum of a message with the addresses of its packet. */
static uint32_t message_sum(const uint8_t *packet, const uint8_t *message, size_t size) {
    return sum_of(message, size, (uint64_t)get32(packet + 12) + get32(packet + 16) + packet[9] + size);
}
