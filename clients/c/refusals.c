/* Each refusal of each call, that nothing has changed after it, and the text of each number. Exits with 1 at the
 * first that is not as caladan.h says. */
#include "caladan.h"
#include <stdio.h>
#include <string.h>

static const char TABLE[] = "cores = 2\nbandwidth_limit = 1000\n\n"
                            "[[task]]\nkind = \"lc\"\nguaranteed = 1\nlimit = 1\ndelay = 10\nrequest = 50\n";

#define WANT(got, wanted) do { unsigned long long g = (unsigned long long)(got), w = (wanted); \
    if (g != w) { printf("line %d: %s is %llu, not %llu\n", __LINE__, #got, g, w); return 1; } } while (0)

static uint8_t open_text(const char *text, caladan *handle) {
    return caladan_open((const uint8_t *)text, strlen(text), handle);
}

static int closed(void) {
    caladan handle = CALADAN_CLOSED;
    caladan_holder_of_core holder = {9, 9, 9, 9};
    caladan_counts counts = {9, 9, 9};
    caladan_look look = {0};
    caladan_action actions[CALADAN_MOST_ACTIONS];
    uint8_t judged = 77;
    size_t made = 99;
    WANT(caladan_threads(&handle), 0);
    WANT(caladan_bandwidth_limit(&handle), 0);
    WANT(caladan_holder_of(&handle, 0, &holder), CALADAN_IS_CLOSED);
    WANT(caladan_task(&handle, 0, &counts), CALADAN_IS_CLOSED);
    WANT(caladan_pass(&handle, 1, 0, &look, 1, &judged, 1, actions, CALADAN_MOST_ACTIONS, &made), CALADAN_IS_CLOSED);
    WANT(made, 0);
    WANT(judged, 77);
    WANT(holder.state, 9);
    WANT(counts.cap, 9);
    WANT(caladan_close(&handle), CALADAN_IS_CLOSED);
    WANT(open_text("cores = 3\n", &handle), CALADAN_MISSING_KEY);
    WANT(open_text("cores", &handle), CALADAN_NOT_TOML);
    WANT(handle.open, 0);
    WANT(caladan_holder_of(&handle, 256, &holder), CALADAN_IS_CLOSED);
    return 0;
}

/* Null is a pointer to nothing, where the number after it is 0. */
static int nothing(void) {
    caladan handle = CALADAN_CLOSED;
    caladan_audit audit = CALADAN_AUDIT_CLOSED;
    caladan_guard guard = CALADAN_GUARD_CLOSED;
    caladan_look look = {.room = 1};
    caladan_refused refused;
    caladan_holder_of_core holder;
    uint8_t judged = 77, thread;
    size_t made, unfit;
    uint64_t pass;
    WANT(caladan_open(NULL, 0, &handle), CALADAN_MISSING_KEY);
    WANT(caladan_audit_open(NULL, 0, &audit), CALADAN_MISSING_KEY);
    WANT(caladan_guard_open(NULL, 0, &guard), CALADAN_MISSING_KEY);
    WANT(open_text(TABLE, &handle), CALADAN_DONE);
    WANT(caladan_pass(&handle, 1, 0, NULL, 0, NULL, 0, NULL, 0, &made), CALADAN_WRONG_COUNT);
    WANT(caladan_pass_each(&handle, 1, 0, &look, 1, NULL, 0, NULL, 0, &made), CALADAN_NO_ROOM);
    WANT(caladan_first_unfit(&handle, NULL, 0, &unfit), CALADAN_WRONG_COUNT);
    WANT(caladan_guard_open((const uint8_t *)TABLE, strlen(TABLE), &guard), CALADAN_DONE);
    WANT(caladan_guard_pass(&guard, 1, 0, &look, 1, &judged, 1, NULL, 0, &refused), CALADAN_DONE);
    WANT(caladan_guard_pass_each(&guard, 1, 0, NULL, 0, NULL, 0, NULL, 0, &refused), CALADAN_WRONG_COUNT);
    WANT(caladan_guard_holder_of(&guard, 256, &holder), CALADAN_NO_SUCH);
    WANT(caladan_guard_holder_of(&guard, SIZE_MAX, &holder), CALADAN_NO_SUCH);
    WANT(caladan_guard_revoked(&guard, 256, &thread), CALADAN_NO_SUCH);
    WANT(caladan_audit_open((const uint8_t *)TABLE, strlen(TABLE), &audit), CALADAN_DONE);
    WANT(caladan_audit_pass(&audit, 1, 0, NULL, 0, NULL, 0, NULL, 0), CALADAN_DONE);
    WANT(caladan_audit_verdict(&audit, &pass), CALADAN_ILLEGAL);
    WANT(caladan_close(&handle) + caladan_audit_close(&audit) + caladan_guard_close(&guard), 0);
    return 0;
}

static int opened(void) {
    caladan handle = CALADAN_CLOSED;
    static caladan_action actions[CALADAN_MOST_ACTIONS];
    caladan_look look = {.room = 1, .number = 1, .queued = 1, .oldest = 100, .stamp = 105};
    caladan_look wrong = look, torn = {.busy = 1, .room = 1, .number = 2, .second = 2};
    caladan_holder_of_core holder;
    caladan_counts counts;
    uint8_t judged[1] = {77};
    size_t made;
    wrong.running = 129;
    WANT(open_text(TABLE, &handle), CALADAN_DONE);
    WANT(open_text(TABLE, &handle), CALADAN_IS_OPEN);
    WANT(caladan_threads(&handle), 1);
    WANT(caladan_bandwidth_limit(&handle), 1000);
    for (int again = 0; again < 3; again++) {
        WANT(caladan_pass(&handle, 111, 0, &look, 1, judged, 1, actions, 337, &made), CALADAN_NO_ROOM);
        WANT(caladan_pass(&handle, 111, 0, &look, 1, judged, 0, actions, CALADAN_MOST_ACTIONS, &made), CALADAN_NO_ROOM);
        WANT(caladan_pass(&handle, 111, 0, &look, 0, judged, 1, actions, CALADAN_MOST_ACTIONS, &made),
             CALADAN_WRONG_COUNT);
        WANT(caladan_pass(&handle, 111, 0, &wrong, 1, judged, 1, actions, CALADAN_MOST_ACTIONS, &made), CALADAN_UNFIT);
        WANT(caladan_pass(&handle, 111, 0, &torn, 1, judged, 1, actions, CALADAN_MOST_ACTIONS, &made), CALADAN_UNFIT);
        WANT(made, 0);
        WANT(judged[0], 77);
        WANT(caladan_holder_of(&handle, 0, &holder), CALADAN_DONE);
        WANT(holder.state, CALADAN_CORE_FREE);
    }
    WANT(caladan_pass(&handle, 111, 0, &look, 1, judged, 1, actions, CALADAN_MOST_ACTIONS, &made), CALADAN_DONE);
    WANT(made, 1);
    WANT(judged[0], CALADAN_KEPT);
    WANT(actions[0].kind, CALADAN_GRANT);
    WANT(actions[0].core, 0);
    WANT(actions[0].core_class, 3);
    WANT(caladan_holder_of(&handle, 0, &holder), CALADAN_DONE);
    WANT(holder.state, CALADAN_CORE_HELD);
    WANT(caladan_holder_of(&handle, 2, &holder), CALADAN_NO_SUCH);
    WANT(caladan_holder_of(&handle, 255, &holder), CALADAN_NO_SUCH);
    WANT(caladan_holder_of(&handle, 256, &holder), CALADAN_NO_SUCH);
    WANT(caladan_holder_of(&handle, SIZE_MAX, &holder), CALADAN_NO_SUCH);
    WANT(caladan_revoked(&handle, 256, judged), CALADAN_NO_SUCH);
    CALADAN_CALLS_OLD
    WANT(caladan_holder(&handle, 0, &holder), CALADAN_DONE);
    WANT(caladan_holder(&handle, 255, &holder), CALADAN_NO_SUCH);
    CALADAN_CALLS_NEW
    WANT(caladan_task(&handle, 0, &counts), CALADAN_DONE);
    WANT(counts.held, 1);
    WANT(counts.booked, 1);
    WANT(counts.cap, 1);
    WANT(caladan_task(&handle, 1, &counts), CALADAN_NO_SUCH);
    WANT(caladan_close(&handle), CALADAN_DONE);
    WANT(caladan_close(&handle), CALADAN_IS_CLOSED);
    WANT(open_text(TABLE, &handle), CALADAN_DONE);
    WANT(caladan_close(&handle), CALADAN_DONE);
    return 0;
}

static uint8_t verdict_of(caladan_audit *audit, uint64_t *pass) {
    *pass = 77;
    return caladan_audit_verdict(audit, pass);
}

static int audited(void) {
    caladan_audit audit = CALADAN_AUDIT_CLOSED;
    caladan_look look = {.room = 1, .number = 1, .queued = 1, .oldest = 100, .stamp = 105};
    caladan_look quiet = {.room = 1, .number = 1, .queued = 1, .oldest = 100, .stamp = 105};
    caladan_look torn = {.busy = 1, .room = 1, .number = 3, .second = 3};
    caladan_action grant = {.kind = CALADAN_GRANT, .core_class = 3}, none = grant, more = grant;
    caladan_action cause = {.kind = CALADAN_REVOKE, .cause = 4};
    uint8_t kept = CALADAN_KEPT, busy = CALADAN_BUSY, wrong = 5;
    uint64_t pass;
    none.kind = 7;
    more.cap = 1;
    WANT(verdict_of(&audit, &pass), CALADAN_IS_CLOSED);
    WANT(pass, 77);
    WANT(caladan_audit_pass(&audit, 111, 0, &look, 1, &kept, 1, &grant, 1), CALADAN_IS_CLOSED);
    WANT(caladan_audit_close(&audit), CALADAN_IS_CLOSED);
    WANT(caladan_audit_open((const uint8_t *)"cores", 5, &audit), CALADAN_NOT_TOML);
    for (int illegal = 0; illegal < 2; illegal++) {
        WANT(caladan_audit_open((const uint8_t *)TABLE, strlen(TABLE), &audit), CALADAN_DONE);
        WANT(caladan_audit_open((const uint8_t *)TABLE, strlen(TABLE), &audit), CALADAN_IS_OPEN);
        WANT(verdict_of(&audit, &pass), CALADAN_DONE);
        WANT(caladan_audit_pass(&audit, 111, 0, &look, 1, &kept, 0, &grant, 1), CALADAN_WRONG_COUNT);
        WANT(caladan_audit_pass(&audit, 111, 0, &look, 1, &wrong, 1, &grant, 1), CALADAN_NO_JUDGEMENT);
        WANT(caladan_audit_pass(&audit, 111, 0, &look, 1, &busy, 1, &grant, 1), CALADAN_NO_JUDGEMENT);
        WANT(caladan_audit_pass(&audit, 111, 0, &torn, 1, &kept, 1, &grant, 1), CALADAN_NO_JUDGEMENT);
        WANT(caladan_audit_pass(&audit, 111, 0, &look, 1, &kept, 1, &none, 1), CALADAN_NO_ACTION);
        WANT(caladan_audit_pass(&audit, 111, 0, &look, 1, &kept, 1, &more, 1), CALADAN_NO_ACTION);
        WANT(caladan_audit_pass(&audit, 111, 0, &look, 1, &kept, 1, &cause, 1), CALADAN_NO_ACTION);
        WANT(verdict_of(&audit, &pass), CALADAN_DONE);
        WANT(pass, 77);
        WANT(caladan_audit_pass(&audit, 111, 0, &look, 1, &kept, 1, &grant, 1), CALADAN_DONE);
        WANT(verdict_of(&audit, &pass), CALADAN_DONE);
        WANT(caladan_audit_pass(&audit, 112, 0, &quiet, 1, &kept, 1, &grant, (size_t)illegal), CALADAN_DONE);
        WANT(verdict_of(&audit, &pass), illegal ? CALADAN_ILLEGAL : CALADAN_DONE);
        WANT(pass, illegal ? 1 : 77);
        WANT(caladan_audit_pass(&audit, 113, 0, &look, 0, &kept, 0, &grant, 0), CALADAN_DONE);
        WANT(verdict_of(&audit, &pass), CALADAN_ILLEGAL);
        WANT(pass, illegal ? 1 : 2);
        WANT(caladan_audit_close(&audit), CALADAN_DONE);
    }
    WANT(caladan_audit_close(&audit), CALADAN_IS_CLOSED);
    return 0;
}

/* A number that no policy has is refused before the table is read, and after an open handle. */
static int by_policy(void) {
    static const uint32_t none[] = {77, 256, 65536, UINT32_MAX};
    const uint8_t *table = (const uint8_t *)TABLE;
    const size_t length = strlen(TABLE);
    caladan handle = CALADAN_CLOSED;
    caladan_audit audit = CALADAN_AUDIT_CLOSED;
    uint64_t pass;
    for (size_t k = 0; k < sizeof none / sizeof *none; k++) {
        WANT(caladan_open_policy(table, length, none[k], &handle), CALADAN_NO_POLICY);
        WANT(caladan_audit_open_policy(table, length, none[k], &audit), CALADAN_NO_POLICY);
        WANT(caladan_open_policy(NULL, 0, none[k], &handle), CALADAN_NO_POLICY);
        WANT(caladan_audit_open_policy(NULL, 0, none[k], &audit), CALADAN_NO_POLICY);
        WANT(handle.open || audit.open, 0);
        WANT(strcmp(caladan_policy_text(none[k]), "no policy"), 0);
    }
    WANT(caladan_open_policy((const uint8_t *)"cores", 5, CALADAN_POLICY_CALADAN, &handle), CALADAN_NOT_TOML);
    WANT(caladan_audit_open_policy((const uint8_t *)"cores", 5, CALADAN_POLICY_CALADAN, &audit), CALADAN_NOT_TOML);
    WANT(caladan_open_policy(table, length, CALADAN_POLICY_CALADAN, &handle), CALADAN_DONE);
    WANT(caladan_audit_open_policy(table, length, CALADAN_POLICY_CALADAN, &audit), CALADAN_DONE);
    WANT(caladan_open_policy(table, length, CALADAN_POLICY_CALADAN, &handle), CALADAN_IS_OPEN);
    WANT(caladan_open_policy(table, length, none[0], &handle), CALADAN_IS_OPEN);
    WANT(caladan_audit_open_policy(table, length, none[0], &audit), CALADAN_IS_OPEN);
    WANT(caladan_threads(&handle), 1);
    WANT(verdict_of(&audit, &pass), CALADAN_DONE);
    WANT(strcmp(caladan_policy_text(CALADAN_POLICY_CALADAN), "caladan"), 0);
    WANT(strcmp(caladan_policy_text(CALADAN_POLICY_ASSURED), "assured"), 0);
    WANT(strcmp(caladan_answer_text(CALADAN_NO_POLICY), "no policy has this number"), 0);
    WANT(caladan_close(&handle) + caladan_audit_close(&audit), 0);
    return 0;
}

/* The text of a number. */
typedef struct { uint8_t number; const char *text; } named_text;

/* How many numbers have another text; one that is not named is to have that of none. */
static size_t others(const char *(*text_of)(uint8_t), const named_text *texts, size_t count, const char *none) {
    size_t found = 0;
    for (unsigned number = 0; number < 256; number++) {
        const char *wanted = none;
        for (size_t k = 0; k < count; k++) wanted = texts[k].number == number ? texts[k].text : wanted;
        if (strcmp(text_of((uint8_t)number), wanted)) {
            printf("the text of %u is \"%s\", not \"%s\"\n", number, text_of((uint8_t)number), wanted);
            found++;
        }
    }
    return found;
}

#define OTHERS(text_of, texts, none) others(text_of, texts, sizeof(texts) / sizeof *(texts), none)

static const named_text ANSWERS[] = {
    {CALADAN_DONE, "done"},
    {CALADAN_NOT_TOML, "the table is not TOML"},
    {CALADAN_UNKNOWN_KEY, "the table has an unknown key"},
    {CALADAN_MISSING_KEY, "the table lacks a key"},
    {CALADAN_WRONG_TYPE, "a value has the wrong type"},
    {CALADAN_OUT_OF_RANGE, "a value is out of range"},
    {CALADAN_BEST_EFFORT_GUARANTEE, "a best-effort task has a guarantee"},
    {CALADAN_GUARANTEES_EXCEED_CORES, "the guarantees exceed the cores"},
    {CALADAN_TOO_MANY_THREADS, "there are too many threads"},
    {CALADAN_NO_MEMORY, "out of memory"},
    {CALADAN_IS_CLOSED, "the handle is closed"},
    {CALADAN_IS_OPEN, "the handle is open"},
    {CALADAN_WRONG_COUNT, "the count is wrong"},
    {CALADAN_NO_ROOM, "there is too little room"},
    {CALADAN_UNFIT, "a look does not fit"},
    {CALADAN_NO_SUCH, "the table has no such core, task or thread"},
    {CALADAN_NO_ACTION, "an action is none"},
    {CALADAN_NOT_PERMITTED, "an action is not permitted"},
    {CALADAN_NO_JUDGEMENT, "a number is no judgement of its look"},
    {CALADAN_ILLEGAL, "a pass is not legal"},
    {CALADAN_LOST, "no page can show that the thread is gone"},
    {CALADAN_NO_POLICY, "no policy has this number"},
};

static const named_text JUDGEMENTS[] = {
    {CALADAN_KEPT, "kept"},
    {CALADAN_BUSY, "busy"},
    {CALADAN_AHEAD, "ahead: it acknowledges more commands than were sent"},
    {CALADAN_FOREIGN, "foreign: it shows a core that the thread was not given"},
    {CALADAN_NO_PAIR, "its versions are no busy pair"},
    {CALADAN_MISSHAPEN, "misshapen: running or misses is out of range"},
    {CALADAN_PLACE_FELL, "its place fell"},
    {CALADAN_CHANGED, "another record at the same place"},
    {CALADAN_WORD_FELL, "taken, misses or stamp fell"},
};

static const named_text CAUSES[] = {
    {CALADAN_FOR_BAN, "for a ban"},
    {CALADAN_FOR_BANDWIDTH, "for bandwidth"},
    {CALADAN_FOR_TASK, "for a task"},
};

static const named_text WHYS[] = {
    {CALADAN_WHY_TOO_MANY, "the pass has the most actions"},
    {CALADAN_WHY_DOES_NOT_FIT, "it does not fit the state"},
    {CALADAN_WHY_NOT_LEFT, "the core was not left"},
    {CALADAN_WHY_BANNED, "the core is banned"},
    {CALADAN_WHY_AT_LIMIT, "the task is at its limit"},
    {CALADAN_WHY_AT_CAP, "the task is at its cap"},
    {CALADAN_WHY_AT_GUARANTEE, "the task is at its guarantee"},
    {CALADAN_WHY_RING_FULL, "the ring is full"},
    {CALADAN_WHY_SECOND_COMMAND, "a second command to the thread in this pass"},
    {CALADAN_WHY_BANNED_HELD, "a banned core is held"},
    {CALADAN_WHY_OVER_CAP, "a task is over its cap"},
};

static int texts(void) {
    WANT(OTHERS(caladan_answer_text, ANSWERS, "no answer"), 0);
    WANT(OTHERS(caladan_judgement_text, JUDGEMENTS, "no judgement"), 0);
    WANT(OTHERS(caladan_cause_text, CAUSES, "no cause"), 0);
    WANT(OTHERS(caladan_why_text, WHYS, "no reason"), 0);
    return 0;
}

int main(void) {
    WANT(caladan_version(), CALADAN_VERSION);
    WANT(CALADAN_IS_THIS_VERSION(), 1);
    if (closed() || nothing() || opened() || audited() || by_policy() || texts()) return 1;
    puts("refusals: ok");
    return 0;
}
