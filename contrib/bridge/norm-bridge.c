/* Passes the IPv4 frames of two interfaces through norm. norm-bridge(8) says how it is used. */
#include "norm-bridge.h"
#include <fcntl.h>
#include <grp.h>
#include <linux/capability.h>
#include <net/if.h>
#include <pthread.h>
#include <pwd.h>
#include <signal.h>
#include <stdarg.h>
#include <sys/prctl.h>
#include <sys/syscall.h>

enum { CAPABILITIES = 64, WAIT_NANOSECONDS = 50000000 };

struct options options = {.jobs = 1};
struct side sides[SIDES];
struct worker workers[JOBS];
static sigset_t heard;
/* How the bridge ends; -1 as long as it does not. */
static atomic_int status = -1;

/* Writes one line to standard error, in one piece. */
void say(const char *form, ...) {
    char line[2048] = "norm-bridge: ";
    size_t head = strlen(line);
    va_list parts;
    va_start(parts, form);
    vsnprintf(line + head, sizeof line - head - 1, form, parts);
    va_end(parts);
    strcat(line, "\n");
    if (write(2, line, strlen(line)) < 0) return;
}

uint64_t now_of(clockid_t clock) {
    struct timespec now;
    clock_gettime(clock, &now);
    return (uint64_t)now.tv_sec * 1000000000 + (uint64_t)now.tv_nsec;
}

bool is_first_end(int how) { return atomic_compare_exchange_strong(&status, &(int){-1}, how); }

bool is_ending(void) { return atomic_load(&status) >= 0; }

/* Prepares signals. Opens descriptors 0 to 2 first, so that no other file becomes one of them. */
static void begin_signals(void) {
    static const int ignored[] = {SIGPIPE, SIGHUP, SIGXFSZ}, taken[] = {SIGINT, SIGTERM, SIGUSR1};
    int opened;
    while ((opened = open("/dev/null", O_RDWR)) >= 0 && opened <= 2) {}
    close(opened);
    for (size_t i = 0; i < sizeof ignored / sizeof *ignored; i++) signal(ignored[i], SIG_IGN);
    sigemptyset(&heard);
    for (size_t i = 0; i < sizeof taken / sizeof *taken; i++) sigaddset(&heard, taken[i]);
    sigprocmask(SIG_BLOCK, &heard, NULL);
}

/* Gives up all privileges for good: the interfaces are open. */
static void drop_privileges(void) {
    const char *name = options.user ? options.user : "nobody";
    struct __user_cap_header_struct head = {_LINUX_CAPABILITY_VERSION_3, 0};
    struct __user_cap_data_struct none[2] = {{0, 0, 0}, {0, 0, 0}};
    for (int i = 0; i < CAPABILITIES; i++) prctl(PR_CAPBSET_DROP, i, 0, 0, 0);
    if (geteuid() != 0 && options.user) fail(2, "--user %s: only root changes its user", name);
    if (geteuid() == 0) {
        const struct passwd *user = getpwnam(name);
        if (!user || user->pw_uid == 0) fail(2, "--user %s: no such user, or root", name);
        const uid_t id = user->pw_uid;
        const gid_t group = user->pw_gid;
        if (initgroups(name, group) < 0 || setresgid(group, group, group) < 0 || setresuid(id, id, id) < 0)
            fail(2, "--user %s: %s", name, strerror(errno));
    }
    if (prctl(PR_SET_NO_NEW_PRIVS, 1, 0, 0, 0) < 0 || prctl(PR_SET_DUMPABLE, 0, 0, 0, 0) < 0
        || syscall(SYS_capset, &head, none) < 0)
        fail(2, "privileges cannot be given up: %s", strerror(errno));
}

/* Adds what the kernel dropped since the last call. */
static void read_kernel(void) {
    for (struct worker *w = workers; w < workers + options.jobs; w++)
        for (int k = 0; k < SIDES; k++) {
            struct tpacket_stats stats = {0, 0};
            socklen_t size = sizeof stats;
            getsockopt(w->ports[k].socket, SOL_PACKET, PACKET_STATISTICS, &stats, &size);
            ADD(w->counts[k][KERNEL], stats.tp_drops);
        }
}

/* Returns the sum of a count over all workers. */
static uintmax_t sum(int of, int which) {
    uintmax_t all = 0;
    for (const struct worker *w = workers; w < workers + options.jobs; w++) all += GET(w->counts[of][which]);
    return all;
}

/* Prints all counts in one line. */
static void print_counts(void) {
    static const char *const titles[COUNTED] = {"outside", "; inside", "; norm", "; kept"};
    static const char *const names[][COUNTS] = {
        {"received", "given", "forged", "arp", "unjudged", "too-long", "truncated", "sent", "failed", "kernel"},
        {"wrote", "pass", "fix", "hold", "drop", "microseconds"},
        {"lost"},
    };
    char line[1500];
    int size = 0;
    read_kernel();
    for (int of = 0; of < COUNTED; of++) {
        const char *const *name = names[of < SIDES ? 0 : of - 1];
        size += snprintf(line + size, sizeof line - (size_t)size, "%s:", titles[of]);
        for (int i = 0; i < COUNTS && name[i]; i++)
            size += snprintf(line + size, sizeof line - (size_t)size, " %s %ju", name[i], sum(of, i));
    }
    say("%s", line);
}

/* Waits for a signal, for some time at most. After the first that ends it, work is finished. */
void wait_once(void) {
    int one = sigtimedwait(&heard, NULL, &(struct timespec){0, WAIT_NANOSECONDS});
    if (one == SIGUSR1) print_counts();
    if (one != SIGINT && one != SIGTERM) return;
    bool first = is_first_end(0);
    say("ending %sby %s", first ? "" : "at once ", one == SIGINT ? "SIGINT" : "SIGTERM");
    if (!first) _exit(1);
}

/* Once a second: does each interface exist, and are counts to be printed? */
static void tick(void) {
    static uint64_t last, seconds;
    char name[IF_NAMESIZE];
    uint64_t now = now_of(CLOCK_MONOTONIC) / 1000000000;
    if (now == last) return;
    last = now;
    read_kernel();
    for (int k = 0; k < SIDES; k++)
        if (!if_indextoname(sides[k].index, name)) end_bridge(1, "%s is gone", sides[k].name);
    if (options.every > 0 && ++seconds % options.every == 0) print_counts();
}

/* Waits until that many other threads have come here. If the bridge ends, they receive nothing. */
static void wait_for(const atomic_uint *threads, uint64_t wanted) {
    while (atomic_load(threads) < wanted) {
        wait_once();
        tick();
        if (!is_ending() || atomic_load(&stopping)) continue;
        set_filters(false);
        atomic_store(&stopping, 1);
    }
}

static void begin_thread(void *(*run)(void *), void *user) {
    pthread_t thread;
    if (pthread_create(&thread, NULL, run, user) != 0) fail(1, "a thread could not be started");
    pthread_detach(thread);
}

int main(int count, char **words) {
    begin_signals();
    read_words(count, words);
    open_sides();
    if (!options.without_norm) make_engine_words();
    drop_privileges();
    for (int j = 0; j < (int)options.jobs; j++) {
        workers[j].number = j;
        begin_thread(work, &workers[j]);
    }
    wait_for(&ready, options.jobs);
    if (is_ending()) exit(status);
    open_kept();
    begin_thread(write_kept, NULL);
    if (options.without_norm) say("warning: frames pass without norm");
    warn_of_sides();
    set_filters(true);
    wait_for(&ended, options.jobs);
    wait_for(&written, 1);
    print_counts();
    return status;
}
