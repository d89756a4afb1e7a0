/* The words of the command line, and those that engines are opened with. */
#include "norm-bridge.h"
#include <sys/random.h>

#define USAGE "usage: norm-bridge [OPTION..] OUTSIDE INSIDE PREFIX.. [-- NORM-OPTION..]"
static const char help[] =
    "Passes the IPv4 frames of two interfaces through norm, and ARP past it. Nothing else crosses.\n\n" USAGE "\n\n"
    "OUTSIDE, INSIDE   the interfaces: of the untrusted network and of the protected hosts\n"
    "PREFIX            the addresses of the protected hosts, as 10.0.0.0/8, 1 to 16 times\n"
    "NORM-OPTION       options of `norm run`, but --both and --inside\n\n"
    "  --user NAME      the user that the bridge runs as; default for root: nobody\n"
    "  --jobs N         1 to 64, default 1: engines, each for a part of the hosts inside\n"
    "  --report FILE    keep norm's report\n"
    "  --keep FOLDER    keep IN, OUT and report of each run, in files of at most an hour\n"
    "  --rotate SIZE    64K to 1024G: begin new files at this size\n"
    "  --strict         end with 1 if a file cannot be written; default: go on without it\n"
    "  --every SECONDS  1 to 86400: print the counts so often\n"
    "  --without-norm   pass frames without norm, to measure\n"
    "  --help, -h       print this text\n"
    "  --version        print the version\n\n"
    "SIGINT and SIGTERM end it with 0, and then nothing passes any more; SIGUSR1 prints the counts.\n"
    "Status: 1 if an engine, an interface or a file failed, 2 if words are wrong. norm-bridge(8) has the rest.\n";

static struct option {
    const char *name;
    const char **text;
    bool *flag;
    uint64_t *number, least, most;
    bool units, given;
} table[] = {
    {"--user", .text = &options.user},
    {"--jobs", .number = &options.jobs, .least = 1, .most = JOBS},
    {"--report", .text = &options.report},
    {"--keep", .text = &options.keep},
    {"--rotate", .number = &options.rotate, .least = 1 << 16, .most = UINT64_C(1) << 40, .units = true},
    {"--strict", .flag = &options.strict},
    {"--every", .number = &options.every, .least = 1, .most = 86400},
    {"--without-norm", .flag = &options.without_norm},
};

/* Tables that the engines share out: the default and the least number that norm takes. */
static const struct shared { const char *name; uint64_t usual, least; } shares[] = {
    {"--flows", 4096, 1}, {"--cells", 65536, 1}, {"--frags", 256, 1}, {"--frag-cells", 4096, 256}, {0}};

static char **prefixes, **norm_words;
static int prefix_count, norm_count;
char *engine_words;

/* Reads a number of 1 to 15 digits, with K, M or G for powers of 1024 where that has a unit. */
static bool read_number(const struct option *option, const char *word) {
    size_t digits = strspn(word, "0123456789");
    const char *unit = option->units && word[digits] ? strchr("KMG", word[digits]) : NULL;
    uint64_t value = digits > 0 && digits <= 15 ? strtoull(word, NULL, 10) : 0;
    if (unit && value < 1 << 30) value <<= *unit == 'K' ? 10 : *unit == 'M' ? 20 : 30, digits++;
    *option->number = value;
    return word[digits] == 0 && value >= option->least && value <= option->most;
}

static bool is_option(const char *word, const char *name) {
    size_t length = strlen(name);
    return strncmp(word, name, length) == 0 && (word[length] == 0 || word[length] == '=');
}

/* Takes an option, whose value follows `=` or is the next word. Returns the words that it took. */
static int take_option(char **words, int left) {
    const char *equals = strchr(words[0], '='), *value = equals ? equals + 1 : left > 1 ? words[1] : "";
    struct option *option = table, *past = table + sizeof table / sizeof *table;
    while (option < past && !is_option(words[0], option->name)) option++;
    if (option == past) fail(2, "%s: no such option; norm-bridge --help lists them", words[0]);
    if (option->given) fail(2, "%s is given twice", option->name);
    if (option->flag ? equals != NULL : !*value)
        fail(2, "%s %s value", option->name, option->flag ? "takes no" : "wants a");
    if (option->number && !read_number(option, value))
        fail(2, "%s %s: from %ju to %ju", option->name, value, (uintmax_t)option->least, (uintmax_t)option->most);
    if (option->text) *option->text = value;
    if (option->flag) *option->flag = true;
    option->given = true;
    return option->flag || equals ? 1 : 2;
}

void read_words(int count, char **words) {
    int at = 1, end = 1;
    bool helps = count == 2 && (strcmp(words[1], "--help") == 0 || strcmp(words[1], "-h") == 0);
    if (helps || (count == 2 && strcmp(words[1], "--version") == 0))
        exit(fputs(helps ? help : "norm-bridge " VERSION "\n", stdout) < 0 || fflush(stdout) != 0);
    while (end < count && strcmp(words[end], "--") != 0) end++;
    norm_words = words + end + 1;
    norm_count = end < count ? count - end - 1 : 0;
    while (at < end && words[at][0] == '-') at += take_option(words + at, end - at);
    if (end - at < 3) fail(2, USAGE);
    sides[NORM_OUTSIDE].name = words[at];
    sides[NORM_INSIDE].name = words[at + 1];
    prefixes = words + at + 2;
    prefix_count = end - at - 2;
    if (options.without_norm && (options.report || options.keep || norm_count > 0))
        fail(2, "--without-norm goes with no option of norm, --report or --keep");
}

/* Returns the value that the words after `--` give an option; NULL if they do not name it. */
static const char *norm_value(const char *option) {
    for (int i = 0; i < norm_count; i++) {
        const char *equals = strchr(norm_words[i], '=');
        if (!is_option(norm_words[i], option)) continue;
        return equals ? equals + 1 : i + 1 < norm_count ? norm_words[i + 1] : "";
    }
    return NULL;
}

/* Adds an engine's share of a table, and at least what norm takes, which refuses what is wrong. */
static void add_share(FILE *text, const struct shared *table) {
    const char *given = norm_value(table->name);
    uint64_t all = given ? strtoull(given, NULL, 10) : table->usual, share = all / options.jobs;
    if (given && (given[strspn(given, "0123456789")] || all < table->least)) share = 0;
    else if (share < table->least) share = table->least;
    fprintf(text, " %s=%ju", table->name, (uintmax_t)share);
}

/* Makes the words of the engines, which are the same for all. The interfaces are open. */
void make_engine_words(void) {
    size_t length;
    FILE *text = open_memstream(&engine_words, &length);
    unsigned mtu = sides[0].mtu < sides[1].mtu ? sides[0].mtu : sides[1].mtu;
    const char *given = norm_value("--mtu");
    uint64_t seed = 0;
    if (!text || getrandom(&seed, sizeof seed, 0) != sizeof seed) fail(1, "words: %s", strerror(errno));
    if (given && strtoull(given, NULL, 10) > mtu) fail(2, "--mtu %s: the interfaces have %u", given, mtu);
    fputs("run", text);
    for (int i = 0; i < norm_count; i++) {
        const struct shared *table = shares;
        if (is_option(norm_words[i], "--both") || is_option(norm_words[i], "--inside"))
            fail(2, "%s is not for a bridge: the interfaces and prefixes give the sides", norm_words[i]);
        if (!*norm_words[i] || strpbrk(norm_words[i], " \t\n\v\f\r")) fail(2, "a word has a space, or is empty");
        while (table->name && !is_option(norm_words[i], table->name)) table++;
        if (!table->name) fprintf(text, " %s", norm_words[i]);
        else if (!strchr(norm_words[i], '=')) i++;
    }
    for (const struct shared *table = shares; table->name; table++) add_share(text, table);
    if (!given) fprintf(text, " --mtu=%u", mtu);
    if (!norm_value("--seed")) fprintf(text, " --seed=%ju", (uintmax_t)seed);
    fputs(" in out", text);
    for (int i = 0; i < prefix_count; i++) fprintf(text, " %s", prefixes[i]);
    fclose(text);
}
