/* trace.h: reads what caladan_sim reads (docs/FORMATS.md): a task table, a line ---, and signals or a history. What
 * it refuses is what caladan_sim refuses, by tools/audits. */
#ifndef CALADAN_TRACE_H
#define CALADAN_TRACE_H
#include "caladan.h"
#include <stdio.h>
#include <stdlib.h>

/* A row has at most 4 fields before a record's words, and no field of it is longer than a number. */
enum {
    MOST_TEXT = 1 << 26,
    MOST_PASSES = 1 << 20,
    MOST_FIELDS = 4 + CALADAN_WORDS,
    FIELD_ROOM = 24,
    WORDS_OF_VERSION_1 = 7
};

/* An input, and its two parts. */
typedef struct input {
    char *text;
    const char *trace;
    size_t length, table_length, trace_length;
} input;

/* What the words `--policy NAME` after a program's name ask for: the number of the policy, and of a name that is none a
 * number that no policy has. Without them it is Caladan's. */
static inline uint32_t policy_asked(int argc, char **argv) {
    enum { MANY = 256 };
    uint32_t number = 0;
    if (argc < 3 || strcmp(argv[1], "--policy")) return CALADAN_POLICY_CALADAN;
    while (number < MANY && strcmp(caladan_policy_text(number), argv[2])) number++;
    return number;
}

/* Finds the first line that is exactly ---. */
static inline bool split_input(input *in) {
    size_t line = 0;
    for (size_t at = 0; at < in->length; at++) {
        if (in->text[at] != '\n') continue;
        size_t length = at - line - (at > line && in->text[at - 1] == '\r');
        if (length == 3 && !memcmp(in->text + line, "---", 3)) {
            in->table_length = line;
            in->trace = in->text + at + 1;
            in->trace_length = in->length - at - 1;
            return true;
        }
        line = at + 1;
    }
    return false;
}

/* Reads all of a file. False where it has no separator, or is too long, or cannot be read; `text` is to be freed. */
static inline bool read_input(FILE *file, input *in) {
    size_t room = 1 << 16;
    *in = (input){.text = malloc(room)};
    while (in->text) {
        in->length += fread(in->text + in->length, 1, room - in->length, file);
        if (in->length < room || room > MOST_TEXT) break;
        char *more = realloc(in->text, room *= 2);
        if (!more) free(in->text);
        in->text = more;
    }
    return in->text && !ferror(file) && in->length <= MOST_TEXT && split_input(in);
}

/* The rows of a trace, as CSV; the one that was read last has so many fields. */
typedef struct rows {
    const char *at, *end;
    int count;
    bool is_odd; /* it has a field that is in no row */
    char field[MOST_FIELDS][FIELD_ROOM];
} rows;

static inline bool is_line_end(char c) { return c == '\n' || c == '\r'; }

/* One byte more in the last field. */
static inline void add_to_field(rows *it, char c) {
    if (it->is_odd) return;
    char *field = it->field[it->count - 1];
    size_t length = strlen(field);
    if (length + 1 == FIELD_ROOM || c == 0) it->is_odd = true;
    else field[length] = c, field[length + 1] = 0;
}

static inline void add_field(rows *it) {
    if (it->count == MOST_FIELDS) it->is_odd = true;
    else it->field[it->count++][0] = 0;
}

/* Reads the next row; blank lines are none. False where there is none. */
static inline bool next_row(rows *it) {
    enum { FIRST, PLAIN, QUOTED, CLOSED } state = FIRST;
    it->count = 0;
    it->is_odd = false;
    it->field[0][0] = 0;
    while (it->at < it->end && is_line_end(*it->at)) it->at++;
    if (it->at == it->end) return false;
    add_field(it);
    for (; it->at < it->end && (state == QUOTED || !is_line_end(*it->at)); it->at++) {
        char c = *it->at;
        if (state != QUOTED && c == ',') add_field(it), state = FIRST;
        else if (state == FIRST && c == '"') state = QUOTED;
        else if (state == QUOTED && c == '"') state = CLOSED;
        else if (state == CLOSED && c == '"') add_to_field(it, c), state = QUOTED;
        else add_to_field(it, c), state = state == QUOTED ? QUOTED : PLAIN;
    }
    return true;
}

/* Whether the row has this word and so many fields. */
static inline bool is_row(const rows *it, const char *word, int count) {
    return !it->is_odd && it->count == count && !strcmp(it->field[0], word);
}

/* A field as a number: 0, or digits with no zero in front. False where it is none, or above `most`. */
static inline bool read_number(const rows *it, int field, uint64_t most, uint64_t *number) {
    const char *at = it->field[field];
    *number = 0;
    if (*at == 0 || (*at == '0' && at[1] != 0)) return false;
    for (; *at; at++) {
        if (*at < '0' || *at > '9') return false;
        uint64_t digit = (uint64_t)(*at - '0');
        if (*number > (UINT64_MAX - digit) / 10) return false;
        *number = *number * 10 + digit;
    }
    return *number <= most;
}

/* One that fits a byte. */
static inline bool read_byte(const rows *it, int field, uint64_t most, uint8_t *byte) {
    uint64_t number;
    if (!read_number(it, field, most, &number)) return false;
    *byte = (uint8_t)number;
    return true;
}

/* Which of the words it is, from 1 on; 0: none. */
static inline uint8_t place_of_word(const rows *it, int field, const char *const *words, uint8_t count) {
    for (uint8_t k = 0; k < count; k++)
        if (!it->is_odd && !strcmp(it->field[field], words[k])) return k + 1;
    return 0;
}

/* What is being read: the rows, and what they may say. */
typedef struct trace {
    rows rows;
    caladan_machine machine;
    bool is_history;
    int words; /* of a record in its version */
    uint64_t passes;
} trace;

/* A pass as it stands there; of signals without actions. */
typedef struct recorded {
    uint64_t now, bandwidth;
    size_t count, made;
    caladan_look looks[CALADAN_MOST_THREADS];
    uint8_t judged[CALADAN_MOST_THREADS];
    caladan_action actions[CALADAN_MOST_ACTIONS];
} recorded;

/* Begins to read it, for the machine of a table: false where the first row is no header. */
static inline bool begin_trace(trace *it, const input *in, bool is_history, caladan_machine machine) {
    const char *from = in->trace;
    size_t mark = in->trace_length >= 3 && !memcmp(from, "\xef\xbb\xbf", 3) ? 3 : 0;
    uint64_t version;
    *it = (trace){
        .rows = {.at = from + mark, .end = from + in->trace_length}, .machine = machine, .is_history = is_history};
    if (!next_row(&it->rows) || !is_row(&it->rows, is_history ? "caladan-history" : "caladan-signals", 2)) return false;
    if (!read_number(&it->rows, 1, 2, &version) || version == 0) return false;
    it->words = version == 1 ? WORDS_OF_VERSION_1 : CALADAN_WORDS;
    return true;
}

static inline bool read_words(const trace *it, caladan_look *look) {
    uint64_t words[CALADAN_WORDS] = {0};
    for (int k = 0; k < it->words; k++)
        if (!read_number(&it->rows, 4 + k, UINT64_MAX, &words[k])) return false;
    caladan_look_set_words(look, words);
    return look->running <= CALADAN_MOST_CORES && look->misses <= (uint64_t)1 << 56;
}

/* The row of this thread's look. */
static inline bool read_look(trace *it, recorded *pass, size_t thread) {
    static const char *const words[] = {"whole", "busy", "ahead", "foreign"};
    caladan_look *look = &pass->looks[thread];
    uint64_t named;
    if (!next_row(&it->rows)) return false;
    uint8_t judged = place_of_word(&it->rows, 0, words, it->is_history ? 4 : 2);
    *look = (caladan_look){.busy = judged == CALADAN_BUSY};
    pass->judged[thread] = judged;
    if (!judged || it->rows.count != (look->busy ? 5 : 4 + it->words)) return false;
    if (!read_number(&it->rows, 1, UINT64_MAX, &named) || named != thread) return false;
    if (!read_byte(&it->rows, 2, 1, &look->room) || !read_number(&it->rows, 3, UINT64_MAX, &look->number)) return false;
    if (!look->busy) return read_words(it, look);
    if (!read_number(&it->rows, 4, UINT64_MAX, &look->second)) return false;
    return look->number % 2 ? look->second == look->number : look->second > look->number;
}

static inline bool read_revocation(const trace *it, caladan_action *action) {
    static const char *const causes[] = {"ban", "bandwidth", "preempt"};
    const rows *row = &it->rows;
    if (row->count < 3) return false;
    action->cause = place_of_word(row, 2, causes, 3);
    if (action->cause == CALADAN_FOR_BANDWIDTH) return row->count == 3;
    if (row->count != 4) return false;
    if (action->cause == CALADAN_FOR_BAN) return read_byte(row, 3, it->machine.cores - 1u, &action->by);
    return action->cause == CALADAN_FOR_TASK && read_byte(row, 3, it->machine.tasks - 1u, &action->task);
}

/* The fields of the row of an action of this kind. */
static inline bool read_action(const trace *it, caladan_action *action, uint8_t kind) {
    static const int counts[] = {0, 2, 2, 4, 0, 3, 4};
    const rows *row = &it->rows;
    uint64_t tasks = it->machine.tasks - 1u, cores = it->machine.cores - 1u, threads = it->machine.threads - 1u;
    *action = (caladan_action){.kind = kind};
    if (kind != CALADAN_REVOKE && row->count != counts[kind]) return false;
    if (kind == CALADAN_CAP) return read_byte(row, 1, tasks, &action->task) && read_byte(row, 2, 16, &action->cap);
    if (kind == CALADAN_REVOKE && !read_revocation(it, action)) return false;
    if (!read_byte(row, 1, cores, &action->core)) return false;
    if (kind != CALADAN_BAN && kind != CALADAN_GRANT) return true;
    if (!read_byte(row, 2, threads, &action->thread)) return false;
    if (kind == CALADAN_BAN) return read_number(row, 3, UINT64_MAX, &action->started);
    return read_byte(row, 3, 5, &action->core_class) && action->core_class > 0;
}

/* The rows of actions, up to another row, which is then the one that was read. */
static inline bool read_actions(trace *it, recorded *pass) {
    static const char *const kinds[] = {"free", "unban", "ban", "revoke", "cap", "grant"};
    uint8_t kind;
    while (next_row(&it->rows) && it->is_history && (kind = place_of_word(&it->rows, 0, kinds, 6)) != 0)
        if (pass->made == CALADAN_MOST_ACTIONS || !read_action(it, &pass->actions[pass->made++], kind)) return false;
    return true;
}

/* The row `end`, behind which there is none. */
static inline bool is_end(trace *it) {
    uint64_t passes;
    return is_row(&it->rows, "end", 2) && read_number(&it->rows, 1, UINT64_MAX, &passes) && passes == it->passes &&
           !next_row(&it->rows);
}

/* Reads the next pass: 1, it is read; 0, the trace has ended as it should; -1, it is refused. */
static inline int next_pass(trace *it, recorded *pass) {
    if (it->passes == 0 && !next_row(&it->rows)) return -1;
    if (!is_row(&it->rows, "pass", 3)) return is_end(it) ? 0 : -1;
    if (!read_number(&it->rows, 1, UINT64_MAX, &pass->now) || !read_number(&it->rows, 2, UINT64_MAX, &pass->bandwidth))
        return -1;
    if (it->passes++ == MOST_PASSES) return -1;
    pass->count = it->machine.threads;
    pass->made = 0;
    for (size_t k = 0; k < pass->count; k++)
        if (!read_look(it, pass, k)) return -1;
    return read_actions(it, pass) ? 1 : -1;
}
#endif
