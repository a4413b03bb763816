// caladan.h in C++: a class whose members have names of calls, queries of a const handle, calls as function pointers,
// tables of rows by each policy, and a guard. Prints 'api_in_cpp: ok'.
#include "caladan.h"
#include <cstdio>

namespace {
// Its members have the names of calls that were macros once.
struct board {
    caladan handle = CALADAN_CLOSED;
    caladan_guard guard = CALADAN_GUARD_CLOSED;
    caladan_audit audit = CALADAN_AUDIT_CLOSED;
    int caladan_holder = 1, caladan_guard_holder = 2, caladan_guard_ban = 3, caladan_guard_last = 4;
};

// What is asked of a handle changes nothing.
uint8_t state_of(const caladan &handle, std::size_t core) {
    caladan_holder_of_core holder = {};
    return caladan_holder_of(&handle, core, &holder) == CALADAN_DONE ? holder.state : 255;
}

bool asks(const board &it) {
    caladan_machine machine = {};
    caladan_table_row row = {};
    caladan_core_ban ban = {};
    caladan_core_last last = {};
    uint64_t clock = 0, pass = 0;
    return caladan_table(&it.handle, &machine) == CALADAN_DONE && machine.cores == 2 && machine.threads == 3 &&
           caladan_table_task(&it.handle, 1, &row) == CALADAN_DONE && row.kind == CALADAN_BEST_EFFORT &&
           caladan_next_clock(&it.handle, 1, &clock) == CALADAN_DONE &&
           caladan_guard_ban_of(&it.guard, 256, &ban) == CALADAN_NO_SUCH &&
           caladan_guard_last_of(&it.guard, 1, &last) == CALADAN_DONE && !last.granted &&
           caladan_audit_verdict(&it.audit, &pass) == CALADAN_DONE && state_of(it.handle, 0) == CALADAN_CORE_FREE &&
           state_of(it.handle, 256) == 255;
}

// A pointer to a call takes any number too.
bool points(const board &it) {
    uint8_t (*const holder_of)(const caladan *, std::size_t, caladan_holder_of_core *) = caladan_holder_of;
    uint8_t (*const guard_holder_of)(const caladan_guard *, std::size_t, caladan_holder_of_core *) =
        caladan_guard_holder_of;
    caladan_holder_of_core holder = {};
    return holder_of(&it.handle, 256, &holder) == CALADAN_NO_SUCH &&
           holder_of(&it.handle, 1, &holder) == CALADAN_DONE &&
           guard_holder_of(&it.guard, SIZE_MAX, &holder) == CALADAN_NO_SUCH;
}

bool lives(uint32_t policy) {
    const caladan_table_row rows[] = {{CALADAN_LATENCY_CRITICAL, 1, 2, 0, 10, 50},
                                      {CALADAN_BEST_EFFORT, 0, 1, 0, 0, 0}};
    board it;
    caladan_wrong wrong = {};
    bool well = caladan_open_rows_policy(2, 0, rows, 2, policy, &it.handle, &wrong) == CALADAN_DONE &&
                caladan_audit_open_rows_policy(2, 0, rows, 2, policy, &it.audit, &wrong) == CALADAN_DONE &&
                caladan_guard_open_rows(2, 0, rows, 2, &it.guard, &wrong) == CALADAN_DONE;
    well = well && asks(it) && points(it);
    well = well && it.caladan_holder + it.caladan_guard_holder + it.caladan_guard_ban + it.caladan_guard_last == 10;
    well = caladan_close(&it.handle) == CALADAN_DONE && well;
    return caladan_audit_close(&it.audit) == CALADAN_DONE && caladan_guard_close(&it.guard) == CALADAN_DONE && well;
}
} // namespace

int main() {
    bool well = lives(CALADAN_POLICY_CALADAN) && lives(CALADAN_POLICY_ASSURED) && CALADAN_IS_THIS_VERSION();
    std::puts(well ? "api_in_cpp: ok" : "api_in_cpp: failed");
    return well ? 0 : 1;
}
