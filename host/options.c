/* options.c: the words that caladand is started with, and its table. */
#define _GNU_SOURCE
#include <errno.h>
#include <getopt.h>
#include <stdlib.h>
#include <string.h>
#include "caladand.h"

#ifndef HOST_RELEASE /* the file VERSION, by the Makefile */
#define HOST_RELEASE "of no version"
#endif
#define MILLISECOND ((uint64_t)1000000)
enum { LEAST_PATIENCE = 20, MOST_PATIENCE = 2000, MOST_TABLE = 1 << 20 };
enum { POLICY = 256 }; /* an option that has no letter */

static const char USAGE[] =
    "usage: caladand -n NAME -t TABLE -c CPUS [OPTION ..]\n"
    "  -n NAME     under which processes attach: letters, digits, '.', '_' and '-'\n"
    "  -t TABLE    the file with the task table; its times are nanoseconds\n"
    "  -c CPUS     the processor of each core of the table, siblings in pairs, as 2,3 or 2-3\n"
    "  -o CPU      the processor of the scheduler; without it, any that it does not manage\n"
    "  -m CPU      the processor of a thread that pins, wakes and interrupts others, and is busy;\n"
    "              without it, the passes do so\n"
    "  -u TASK,..  these best-effort tasks stand under: they are in SCHED_IDLE, and a core is\n"
    "              taken from them at once\n"
    "  -s SECONDS  how long; without it, until SIGINT, SIGTERM or SIGHUP\n"
    "  -g NS       the least time from one pass to the next; without it, 0\n"
    "  -y NS       after a pass that sent commands, wait at most so long until they are acknowledged\n"
    "  -k MS       kill a process with a thread that does not leave its core in so long, 20 to 2000;\n"
    "              without it, it is left alone\n"
    "  -w NS       take a bandwidth figure in bytes a microsecond, over so long, from the misses shown\n"
    "  -r FOLDER   write the record there, in pieces, in a new folder of this run (needs -k)\n"
    "  -e          record each pass; without it, idle ones are left out\n"
    "  -p PASSES   the most that are recorded of a piece, 1 to 1000000; without it, 1000000\n"
    "  -b BYTES    about the most of a piece, 1 to 60000000; without it, 60000000\n"
    "  --policy NAME\n"
    "              the policy by which passes are made: caladan, which is the default, or assured\n"
    "  -h, --help; -V, --version\n"
    "It listens in CALADAN_FOLDER/NAME; without that, in /run/caladan/NAME of root, "
    "in XDG_RUNTIME_DIR/caladan/NAME of others.\n";

static void say_and_end(const char *text) {
    fputs(text, stdout);
    exit(fflush(stdout) ? 2 : 0);
}

static uint64_t number(const char *text, uint64_t least, uint64_t most) {
    char *end;
    errno = 0;
    unsigned long long value = strtoull(text, &end, 10);
    if (errno || *end || *text < '0' || *text > '9' || value < least || value > most)
        fail(text, "it is no number in range");
    return value;
}

static void add_cpu(options *o, uint64_t cpu) {
    if (o->cpus == HOST_CORES) fail("-c", "it names too many processors");
    o->cpu[o->cpus++] = (int)cpu;
}

/* Numbers and ranges, as 2,4-6: nothing is left out between commas. */
static void read_cpus(options *o, char *text) {
    for (char *word; (word = strsep(&text, ","));) {
        char *last = strchr(word, '-');
        if (last) *last++ = 0;
        uint64_t first = number(word, 0, CPU_SETSIZE - 1), end = last ? number(last, first, CPU_SETSIZE - 1) : first;
        for (uint64_t cpu = first; cpu <= end; cpu++) add_cpu(o, cpu);
    }
}

/* The tasks that stand under: which they are is known to the table. */
static void read_tasks(options *o, char *text) {
    for (char *word; (word = strsep(&text, ","));)
        o->under |= 1u << number(word, 0, HOST_TASKS - 1);
}

static uint32_t policy_named(const char *name) {
    for (uint32_t policy = 0; policy <= CALADAN_POLICY_ASSURED; policy++)
        if (strcmp(name, caladan_policy_text(policy)) == 0) return policy;
    fail("--policy", "the policies are caladan and assured");
}

static void read_option(options *o, int option) {
    switch (option) {
    case 'n': o->name = optarg; break;
    case 't': o->table = optarg; break;
    case 'c': read_cpus(o, optarg); break;
    case 'o': o->own = (int)number(optarg, 0, CPU_SETSIZE - 1); break;
    case 'm': o->mover = (int)number(optarg, 0, CPU_SETSIZE - 1); break;
    case 'u': read_tasks(o, optarg); break;
    case 's': o->seconds = number(optarg, 1, 1000000000); break;
    case 'g': o->gap = number(optarg, 0, 999999999); break;
    case 'y': o->wait = number(optarg, 0, 1000000000); break;
    case 'k': o->patience = number(optarg, LEAST_PATIENCE, MOST_PATIENCE) * MILLISECOND; break;
    case 'w': o->window = number(optarg, 1, 1000000000); break;
    case 'r': o->folder = optarg; break;
    case 'e': o->each = true; break;
    case 'p': o->passes = number(optarg, 1, 1000000); break;
    case 'b': o->bytes = number(optarg, 1, 60000000); break;
    case POLICY: o->policy = policy_named(optarg); break;
    case 'h': say_and_end(USAGE); break;
    case 'V': say_and_end("caladand " HOST_RELEASE "\n"); break;
    default: exit(2); /* getopt has said why */
    }
}

options read_options(int count, char **words) {
    static const struct option longer[] = {{"policy", required_argument, NULL, POLICY},
                                           {"help", no_argument, NULL, 'h'},
                                           {"version", no_argument, NULL, 'V'},
                                           {0}};
    options o = {.own = -1, .mover = -1, .passes = 1000000, .bytes = 60000000};
    static const char letters[] = "n:t:c:o:m:u:s:g:y:k:w:r:ep:b:hV";
    for (int c; (c = getopt_long(count, words, letters, longer, NULL)) != -1;) read_option(&o, c);
    if (optind != count) fail(words[optind], "it is no option");
    if (o.name == NULL || o.table == NULL || o.cpus == 0)
        fail("usage", "caladand -n NAME -t TABLE -c CPUS [OPTION ..]; caladand --help says more");
    if (!host_is_name(o.name))
        fail("-n", "a name has 1 to 64 letters, digits, '.', '_' and '-', and no '.' at the front");
    if (o.folder && o.patience == 0)
        fail("-r", "a record needs -k: a piece ends only when each thread has left its core");
    return o;
}

char *text_of(const char *path) {
    static char text[MOST_TABLE];
    FILE *file = fopen(path, "re");
    if (file == NULL) fail(path, strerror(errno));
    size_t length = fread(text, 1, MOST_TABLE - 1, file);
    if (ferror(file)) fail(path, strerror(errno));
    fclose(file);
    if (length == MOST_TABLE - 1 || strlen(text) != length) fail(path, "it is no task table");
    return text;
}
