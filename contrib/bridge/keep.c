/* Files. Workers copy what is kept into rings, and one thread writes it: no disk delays a frame. */
#include "norm-bridge.h"
#include <fcntl.h>
#include <sys/stat.h>

enum { RINGS = 32 << 20, LEAST_RING = 1 << 20, LINE = 400, NAP_MILLISECONDS = 5, HOUR = 3600, RETRY_SECONDS = 10 };

/* A capture of Ethernet in nanoseconds, of this machine's byte order. */
static const uint32_t capture_head[] = {0xa1b23c4d, 2 | 4 << 16, 0, 0, 262144, 1};
/* Octets of a ring; 0 if nothing is kept. */
static atomic_size_t room;
atomic_uint written;

static bool put(struct file *to, const void *octets, size_t size) {
    size_t from = to->end % room, part = size < room - from ? size : room - from;
    if (to->end + size - atomic_load(&to->tail) > room) return false;
    memcpy(to->ring + from, octets, part);
    memcpy(to->ring, (const uint8_t *)octets + part, size - part);
    to->end += size;
    return true;
}

static bool put_record(struct file *to, const struct taken *read, const uint8_t *octets, size_t size) {
    uint32_t head[] = {read->arrival.seconds, read->arrival.fraction, (uint32_t)size, (uint32_t)size};
    return put(to, head, sizeof head) && put(to, octets, size);
}

/* Adds a frame to IN, and to OUT what is written for it. */
static bool put_frames(struct worker *w, struct file *files, const struct taken *read) {
    static _Thread_local uint8_t copy[LONGEST];
    bool whole = put_record(&files[KEPT_IN], read, read->octets, read->size), same = read->answer.as_read;
    for (uint32_t i = 0; i < read->answer.frames && whole; i++) {
        struct norm_frame frame = {read->size, 0};
        whole = (same || norm_frame(&w->engine, i, copy, sizeof copy, &frame) == NORM_DONE)
                && put_record(&files[KEPT_OUT], read, same ? read->octets : copy, frame.size);
    }
    return whole;
}

/* Adds all that is kept of a frame, or nothing; without a frame, the last line of the engine. */
static bool add(struct worker *w, struct kept *kept, const struct taken *read) {
    uint8_t line[LINE];
    size_t size = 0;
    bool whole = kept->first == KEPT_REPORT || !read || put_frames(w, kept->files, read);
    uint32_t result = read ? norm_line(&w->engine, 0, line, sizeof line, &size)
                           : norm_last(&w->engine, line, sizeof line, &size);
    whole = whole && result == NORM_DONE && put(&kept->files[KEPT_REPORT], line, size);
    for (struct file *file = kept->files; file < kept->files + KINDS; file++) {
        if (whole) atomic_store(&file->head, file->end);
        else file->end = file->head;
    }
    if (whole && read) atomic_fetch_add(&kept->frames, 1);
    return whole;
}

void keep(struct worker *w, const struct taken *read) {
    for (struct kept *kept = w->kept; kept < w->kept + SETS && room > 0; kept++) {
        if (!kept->name || (!kept->behind && add(w, kept, read) && read)) continue;
        kept->behind = true;
        if (read) atomic_fetch_add(&w->counts[OF_FILES][LOST], 1);
        if (read && options.strict) end_bridge(1, "%s: the disk is too slow for --strict", kept->name);
    }
}

/* Returns the time in milliseconds of UTC, as a word that sorts by time. */
static const char *time_word(void) {
    static char word[32];
    uint64_t now = now_of(CLOCK_REALTIME);
    size_t at = strftime(word, sizeof word, "%Y%m%dT%H%M%S", gmtime(&(time_t){(time_t)(now / 1000000000)}));
    snprintf(word + at, sizeof word - at, ".%03uZ", (unsigned)(now / 1000000 % 1000));
    return word;
}

/* Opens the next file of a kind; moves an older report aside. Returns why it cannot, or NULL. */
static const char *open_file(struct worker *w, struct kept *kept, int i, const char *mark) {
    static const char *const kinds[] = {"in", "out", "report"};
    struct file *file = &kept->files[i];
    bool capture = i < KEPT_REPORT, alone = kept->first == KEPT_REPORT;
    char job[8] = "", aside[sizeof file->path + 40];
    struct stat about;
    if (options.jobs > 1) snprintf(job, sizeof job, ".%d", w->number);
    if (alone) snprintf(file->path, sizeof file->path, "%s%s", kept->name, job);
    else
        snprintf(file->path, sizeof file->path, "%s/%s-%s%s-%06u%s.%s", kept->name, kinds[i], kept->run, job,
                 kept->part, mark, capture ? "pcap" : "txt");
    snprintf(aside, sizeof aside, "%s-%s%s", file->path, time_word(), mark);
    bool older = alone && lstat(file->path, &about) == 0 && S_ISREG(about.st_mode) && about.st_size > 0;
    if (older && rename(file->path, aside) < 0) return strerror(errno);
    int flags = O_WRONLY | O_CREAT | O_CLOEXEC | O_NOFOLLOW | O_NONBLOCK | (alone ? O_TRUNC : O_EXCL);
    file->fd = open(file->path, flags, 0600);
    if (file->fd < 0) return strerror(errno);
    if (fstat(file->fd, &about) < 0 || !S_ISREG(about.st_mode)) return "it is no regular file";
    size_t head = capture ? sizeof capture_head : kept->part == 1 ? w->first_size : 0;
    errno = ENOSPC;
    const void *octets = capture ? (const void *)capture_head : w->first_line;
    if (write(file->fd, octets, head) != (ssize_t)head) return strerror(errno);
    file->size = head;
    return NULL;
}

/* Closes files, each after a whole record. Those without one are removed. */
static void close_files(struct kept *kept) {
    bool empty = kept->files[kept->first].size <= sizeof capture_head;
    for (struct file *file = kept->files; file < kept->files + KINDS; file++) {
        if (file->fd < 0) continue;
        if (ftruncate(file->fd, (off_t)file->size) < 0) say("%s: %s", file->path, strerror(errno));
        if (empty) unlink(file->path);
        close(file->fd);
        file->fd = -1;
        file->size = 0;
    }
    kept->open = false;
}

/* Ends files that cannot be written. They begin again some seconds later. */
static void fail_files(struct kept *kept, const char *path, const char *why) {
    if (room == 0) fail(2, "%s: %s (it is opened as the user of --user)", path, why);
    close_files(kept);
    kept->behind = true;
    kept->retry = time(NULL) + RETRY_SECONDS;
    if (options.strict) end_bridge(1, "%s: %s", path, why);
    else say("%s: %s: trying again in %d seconds", path, why, RETRY_SECONDS);
}

/* Begins the next files of a run or, with a mark, of a new one. */
static void begin_files(struct worker *w, struct kept *kept, const char *mark) {
    close_files(kept);
    if (*mark || kept->part == 0) snprintf(kept->run, sizeof kept->run, "%s", time_word());
    kept->part = *mark ? 1 : kept->part + 1;
    kept->since = time(NULL);
    kept->open = true;
    for (int i = kept->first; i < KINDS && kept->open; i++) {
        const char *why = open_file(w, kept, i, mark);
        if (why) fail_files(kept, kept->files[i].path, why);
    }
    if (!*mark || !kept->open) return;
    kept->behind = false;
    say("%s begins after a gap: %ju frames are not kept so far", kept->files[kept->first].path,
        (uintmax_t)GET(w->counts[OF_FILES][LOST]));
}

/* Writes what a ring has, if its file is open. Returns false if that fails, maybe after a part. */
static bool write_ring(struct file *file, size_t head) {
    size_t tail = file->tail;
    while (tail != head && file->fd >= 0) {
        size_t from = tail % room, part = head - tail < room - from ? head - tail : room - from;
        errno = ENOSPC;
        if (write(file->fd, file->ring + from, part) != (ssize_t)part) return false;
        tail += part;
    }
    return true;
}

/* Writes what a worker has put into the rings of these files. Returns whether it was any. */
static bool write_files(struct worker *w, struct kept *kept) {
    uint64_t frames = atomic_load(&kept->frames);
    bool due = kept->first == KEPT_IN && time(NULL) >= kept->since + HOUR, more = false;
    size_t heads[KINDS];
    for (int i = 0; i < KINDS; i++) {
        heads[i] = atomic_load(&kept->files[i].head);
        more = more || heads[i] != kept->files[i].tail;
        due = due || (options.rotate > 0 && kept->files[i].size >= options.rotate);
    }
    if (more && due && kept->open) begin_files(w, kept, "");
    for (int i = 0; i < KINDS; i++)
        if (!write_ring(&kept->files[i], heads[i])) fail_files(kept, kept->files[i].path, strerror(errno));
    for (struct file *file = kept->files; file < kept->files + KINDS; file++) {
        if (kept->open) file->size += heads[file - kept->files] - file->tail;
        atomic_store(&file->tail, heads[file - kept->files]);
    }
    if (!kept->open) atomic_fetch_add(&w->counts[OF_FILES][LOST], frames - kept->done);
    kept->done = frames;
    if (kept->behind && !more && !atomic_load(&stopping) && time(NULL) >= kept->retry) begin_files(w, kept, "-gap");
    return more;
}

/* The thread that writes, until the workers have ended and all is written. */
void *write_kept(void *unused) {
    for (bool last = room == 0, more = !last; more || !last;) {
        last = atomic_load(&ended) == options.jobs;
        more = false;
        for (struct worker *w = workers; w < workers + options.jobs; w++)
            for (int i = 0; i < SETS; i++) more = (w->kept[i].name && write_files(w, &w->kept[i])) || more;
        if (!more && !last) poll(NULL, 0, NAP_MILLISECONDS);
    }
    atomic_store(&written, 1);
    return unused;
}

void open_kept(void) {
    if (!options.keep && !options.report) return;
    size_t size = RINGS / options.jobs > LEAST_RING ? RINGS / options.jobs : LEAST_RING;
    for (struct worker *w = workers; w < workers + options.jobs; w++)
        for (struct kept *kept = w->kept; kept < w->kept + SETS; kept++) {
            kept->first = kept == w->kept ? KEPT_IN : KEPT_REPORT;
            kept->name = kept == w->kept ? options.keep : options.report;
            for (struct file *file = kept->files; file < kept->files + KINDS; file++) {
                *file = (struct file){.ring = calloc(1, size), .fd = -1};
                if (!file->ring) fail(1, "memory for files could not be allocated");
            }
            if (kept->name) begin_files(w, kept, "");
        }
    room = size;
}
