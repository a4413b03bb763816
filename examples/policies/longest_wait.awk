# The longest wait first, latency-critical tasks before best-effort ones: as longest_wait.py.
#
#     caladan_lab sweep --policy "exec:mawk -W interactive -f longest_wait.awk"
#
# mawk, which is Debian's awk, else waits for 4,096 bytes before it reads a row; gawk does not.

BEGIN { FS = ","; task = -1; threads = 0 }

# The table: each key has a line, and `kind` stands before `limit`.
!past && /^cores = / { sub(/.* = /, ""); cores = $0 + 0; next }
!past && /^kind = / { task++; critical = /"lc"/; next }
!past && /^limit = / {
    sub(/.* = /, "")
    for (i = 0; i < $0 + 0; i++) { is_critical[threads] = critical; task_of[threads] = task; core_of[threads++] = -1 }
    next
}
/^---$/ { past = 1; for (c = 0; c < cores; c++) holder[c] = -1; next }
!past { next }

$1 == "pass" { now = $2 }
$1 == "whole" {
    room[$2] = $3; taken[$2] = $5; running[$2] = $6
    queued = $7 ? now - $8 : 0
    paused = $12 ? now - $13 : 0
    wait[$2] = queued > paused ? queued : paused
}
$0 == "" { decide(); print ""; fflush() }

function decide(    k) {
    free_left()
    for (k = 0; k < threads; k++) { told[k] = 0; asked[k] = 0 }
    while ((k = first_waiting()) >= 0) {
        asked[k] = 1
        if ((c = first_free()) >= 0) grant(c, k)
        else if (is_critical[k]) revoke_oldest(task_of[k])
    }
}

function free_left(    c, k) {
    for (c = 0; c < cores; c++) {
        k = holder[c]
        if (k >= 0 && taken[k] >= run[k] && !running[k]) {
            print "free," c
            holder[c] = -1; leaving[c] = 0; core_of[k] = -1
        }
    }
}

# The thread that has waited longest of those that may get a core and were not asked yet; -1 where there is none.
function first_waiting(    k, first) {
    first = -1
    for (k = 0; k < threads; k++)
        if (core_of[k] < 0 && room[k] && wait[k] > 0 && !asked[k] && (first < 0 || is_before(k, first))) first = k
    return first
}

function is_before(k, other) {
    if (is_critical[k] != is_critical[other]) return is_critical[k]
    return wait[k] > wait[other]
}

function first_free(    c) {
    for (c = 0; c < cores; c++) if (holder[c] < 0) return c
    return -1
}

function grant(c, k) {
    print "grant," c "," k ",3"
    holder[c] = k; core_of[k] = c; run[k] = ++sent[k]; granted[c] = ++grants; told[k] = 1
}

function revoke_oldest(task,    c, k, oldest) {
    oldest = -1
    for (c = 0; c < cores; c++) {
        k = holder[c]
        if (k >= 0 && !leaving[c] && !is_critical[k] && room[k] && !told[k] &&
            (oldest < 0 || granted[c] < granted[oldest])) oldest = c
    }
    if (oldest < 0) return
    print "revoke," oldest ",preempt," task
    k = holder[oldest]
    leaving[oldest] = 1; sent[k]++; told[k] = 1
}
