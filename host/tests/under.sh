# under.sh: best-effort tasks that stand under (-u): their threads give a core way to a latency-critical one without a word,
# and are taken off one that is to be empty, or is another best-effort thread's.

# Tables: name, then of each task its kind, guaranteed, limit and request. Siblings are cores 0 and 1.
make_table() { # make_table KIND,GUARANTEED,LIMIT,REQUEST..: sets table
    local each words
    table=$build/under.toml
    printf 'cores = 2\nbandwidth_limit = 1000000000000\n' > "$table"
    for each; do
        IFS=, read -ra words <<< "$each"
        printf '[[task]]\nkind = "%s"\nguaranteed = %s\nlimit = %s\ndelay = 0\nrequest = %s\n' "${words[@]}" >> "$table"
    done
}
long=1000000000000 # a request of a quarter of an hour
class_of() { awk '{ print $41 }' "/proc/$1/task/$2/stat" 2> /dev/null; } # class_of PID TID: 5 is SCHED_IDLE
are_idle() { # are_idle PID NUMBER: so many of its threads are pinned, and each of these is in SCHED_IDLE
    local tid tids
    tids=$(pinned_threads "$1")
    [ "$(wc -w <<< "$tids")" -ge "$2" ] || return 1
    for tid in $tids; do [ "$(class_of "$1" "$tid")" = 5 ] || return 1; done
}

stands_under() { # nobody waits for it, and no core is left by a word of its own
    local judge=note
    what="a best-effort process that stands under, $main"
    rm -f "$counter"
    begin -k 2000 -g 20000 -u 1 "$@"
    go $life "$bin/load" be -n "$name" -u 1 -k 200 -s $life -c "$counter"
    wait_for 20 child_of $last
    wait_for 20 counts_on 0; timed $? "$what: it never worked"
    wait_for 20 are_idle "$child" 2; timed $? "$what: its threads are not in SCHED_IDLE, or not pinned"
    serves 1
    wait_for 20 counts gave_way_total 1; timed $? "$what: it gave no core way"
    wait_for 20 counts_on; timed $? "$what: it does not go on"
    end $last
    has_pieces 1 || judge=timed # what is not there is not judged otherwise
    grep -qx "# Task 1 stands under." "$record/table.toml" && is_legal "$record/table.toml" "$record/piece-000001.history"
    $judge $? "$what: the record does not say what it means, or not legally"
    exactly 0 killed
    [ $# -gt 0 ] || exactly 0 "taken off" # a mover that comes late leaves no other way
}

dozing() { # who keeps a core by its guarantee is woken on it; but not where another task waits for a core
    local before
    what="a latency-critical process that sleeps on its cores"
    make_table lc,2,2,$long lc,0,1,$long be,0,2,0
    begin -k 2000 -g 20000 -u 2
    go $life "$bin/load" be -n "$name" -u 2 -k 200 -s $life
    local best=$last
    wait_for 20 counts 'actions_total{kind="grant"}' 2; timed $? "$what: the best-effort one was granted no cores"
    go $life "$bin/load" lc -n "$name" -u 0 -k 200 -q 500 -s $life
    local first=$last
    wait_for 20 child_of $first
    renewed
    before=$(metric gave_way_total)
    sleep 2.4 # in which there are some 1,200 requests, and counters are written several times
    [ $(($(metric gave_way_total) - before)) -lt 400 ]; timed $? "$what: cores changed hands $(($(metric gave_way_total) - before)) times"
    serves 1 -u 1 -q 500
    end $best $first
    exactly 0 killed
    table=$top/host/tables/mix.toml
}

deaf_under() { # no latency-critical thread waits for one that does not hear
    what="a deaf process that stands under"
    start -k 2000 -g 20000 -u 1
    go $life "$bin/misbehave" "$name" 1 $life deaf
    wait_for 20 only_child_of $last && deaf=$child
    wait_for 20 counts 'actions_total{kind="grant"}' 2; timed $? "$what: it was granted no cores"
    serves 1
    within "$build/process.lc" 1500
    renewed
    ! counts killed_total 1; note $? "$what: it was killed"
    kill -9 "$deaf"
    stop
    above 1 "gave way"
} 2> /dev/null

stopped() { # one that is stopped leaves no core, and is killed for it; one that stands under has not to leave it
    what="a best-effort process that is stopped"
    start -k 500 -g 20000
    go $life "$bin/load" be -n "$name" -u 1 -k 200 -s $life
    wait_for 20 child_of $last
    wait_for 20 counts 'actions_total{kind="grant"}' 2; timed $? "$what: it was granted no cores"
    kill -STOP "$child"
    lc -s 1 > "$build/process.lc" 2>&1
    wait_for 20 is_gone "$child"; timed $? "$what: it was not killed"
    kill -9 "$child"
    says "of task 1 is killed: thread [0-9]+ did not leave core [01] in [0-9]+ ms, and ran for [0-9]+ ms of them; it is stopped, by SIGSTOP or a debugger"
    stop
    what="a process that stands under, and is stopped"
    start -k 500 -g 20000 -u 1
    go $life "$bin/load" be -n "$name" -u 1 -k 200 -s $life
    wait_for 20 child_of $last
    wait_for 20 counts 'actions_total{kind="grant"}' 2; timed $? "$what: it was granted no cores"
    kill -STOP "$child"
    serves 1
    kill -CONT "$child"
    kill -0 "$child"; note $? "$what: it was killed: $(grep killed "$build/said")"
    stop $last
    exactly 0 killed
} 2> /dev/null

frozen() { # nor does one in a frozen group, and it ends only when that is thawed: it is written off
    local group=/sys/fs/cgroup/freezer/caladan-$$
    what="a best-effort process that is frozen, as docker pause does it"
    { [ -d /sys/fs/cgroup/freezer ] && mkdir "$group"; } 2> /dev/null || { skip "$what, for want of rights, or of its folder"; return; }
    start -k 500 -g 20000
    go $life sh -c 'echo 0 > "$0/cgroup.procs" && exec "$@"' "$group" "$bin/load" be -n "$name" -u 1 -k 200 -s $life
    local best=$last frozen=none
    wait_for 20 child_of $best && frozen=$child
    wait_for 20 counts 'actions_total{kind="grant"}' 2; timed $? "$what: it was granted no cores"
    echo FROZEN > "$group/freezer.state"
    go $life "$bin/load" lc -n "$name" -u 0 -k 200 -q 2000 -s $life
    wait_for 40 grep -q "of task 1 is written off" "$build/said"; timed $? "$what: it is not written off: $(cat "$build/said")"
    says "of task 1 is killed: thread [0-9]+ did not leave core [01] in [0-9]+ ms, and ran for [0-9]+ ms of them; it is frozen, as docker pause does it"
    wait_for 10 counts 'actions_total{kind="grant"}' 3; timed $? "$what: the other one is granted nothing"
    kill -TERM $last
    echo THAWED > "$group/freezer.state"
    wait_for 20 is_gone "$frozen"; timed $? "$what: it does not end when it is thawed"
    kill -9 "$frozen"
    wait $best
    [ $? = 137 ]; timed $? "$what: it was not killed when it was thawed"
    stop
    rmdir "$group"
} 2> /dev/null

pieces_on() { od -A n -v -t u8 -j $(($1 * 128)) -N 8 "$counter" | tr -d ' '; } # pieces_on PROCESSOR: best-effort ones, so far
is_empty() { # is_empty PID PROCESSOR: no thread of that process that is pinned there wants to run, and no piece is done there
    local each before
    before=$(pieces_on "$2")
    for each in "/proc/$1/task/"*/status; do
        grep -qs "^Cpus_allowed_list:[[:space:]]*$2\$" "$each" && grep -q "^State:[[:space:]]*R" "$each" && return 1
    done
    sleep 0.3
    [ "$(pieces_on "$2")" = "$before" ]
}

# A long request has the core beside its own banned, which a latency-critical thread has with one that stands under it.
banned_under() {
    local here there each
    what="a process that stands under on a core that is banned"
    [ "${allowed[count - 1]}" -lt 16 ] || { skip "$what, since pieces are counted by sixteen processors"; return; }
    make_table lc,1,1,1000000 lc,1,1,$long be,0,2,0
    rm -f "$counter"
    begin -k 2000 -g 20000 -u 2
    go $life "$bin/load" be -n "$name" -u 2 -k 200 -s $life -c "$counter"
    local best=$last
    wait_for 20 counts 'actions_total{kind="grant"}' 2; timed $? "$what: it was granted no cores"
    child_of $best && runtime=$child
    go $life "$bin/load" lc -n "$name" -u 1 -k 200 -q 1000 -s $life
    local short=$last
    wait_for 20 counts 'actions_total{kind="grant"}' 3; timed $? "$what: the short requests got no core"
    go $life "$bin/load" lc -n "$name" -u 0 -k 200 -q 5 -m 100000000 -s $life
    wait_for 20 child_of $last
    wait_for 20 counts 'actions_total{kind="ban"}' 1; timed $? "$what: nothing is banned"
    here=$(pinned_to "$child")
    for each in ${managed//,/ }; do [ "$each" = "$here" ] || there=$each; done
    [ -n "$here" ] && [ -n "$there" ]; timed $? "$what: the long request is nowhere"
    wait_for 5 is_empty "$runtime" "$there"; timed $? "$what: it works on processor $there, beside that of the long request"
    sleep 1
    is_empty "$runtime" "$there"; timed $? "$what: it works on processor $there again"
    end $best $short $last
    exactly 0 killed
    table=$top/host/tables/mix.toml
}
pinned_to() { sed -n "s/^Cpus_allowed_list:[[:space:]]*\(${managed/,/\\|}\)$/\1/p" "/proc/$1/task/"*/status 2> /dev/null | head -n 1; } # pinned_to PID

cap_under() { # who is to use less of the machine's bandwidth goes off the cores that he has lost
    what="a cap of a task that stands under"
    make_table lc,2,2,$long be,0,2,0
    sed -i 's/^bandwidth_limit.*/bandwidth_limit = 1/' "$table"
    begin -k 2000 -g 50000 -w 1000000 -u 1
    go $life "$bin/load" be -n "$name" -u 1 -k 200 -s $life -b
    wait_for 20 child_of $last
    local best=$last
    serves 1
    wait_for 30 counts 'actions_total{kind="cap"}' 2; timed $? "$what: no cap"
    go $life "$bin/load" lc -n "$name" -u 0 -k 200 -q 2000 -s $life # a cap is cut while somebody stands under it
    wait_for 20 counts taken_off_total 1; timed $? "$what: nobody was taken off"
    end $best $last
    exactly 0 killed
    table=$top/host/tables/mix.toml
}

takes_off() { lc -s 0.2 >> "$build/process.lc" 2>&1; counts taken_off_total 1; } # by a latency-critical one that comes and goes
two_under() { # where one stands under, no other best-effort thread comes before it has left: both claim the processor
    what="a process that stands under, and another best-effort one"
    make_table lc,2,2,$long be,0,2,0 be,0,2,0
    begin -k 2000 -g 20000 -u 1 "$@"
    go $life "$bin/load" be -n "$name" -u 1 -k 200 -s $life
    local under=$last
    wait_for 20 counts 'actions_total{kind="grant"}' 2; timed $? "$what: it was granted no cores"
    go $life "$bin/load" be -n "$name" -u 2 -k 200 -s $life
    wait_for 20 child_of $last
    wait_for 20 takes_off; timed $? "$what: nobody was taken off"
    end $under $last
    exactly 0 killed
    table=$top/host/tables/mix.toml
}

climbers() { # a thread that goes back to the normal class is put into SCHED_IDLE again
    what="threads that stand under, and are put into the normal class"
    command -v chrt > /dev/null || { skip "$what, for want of chrt"; return; }
    start -k 2000 -g 100000 -u 1
    go $life "$bin/load" be -n "$name" -u 1 -k 200 -s $life
    wait_for 20 child_of $last
    wait_for 20 are_idle "$child" 2; timed $? "$what: they never were in SCHED_IDLE"
    for each in $(pinned_threads "$child"); do chrt -o -p 0 "$each" > /dev/null 2>&1 || { skip "$what, for want of rights"; stop $last; return; }; done
    wait_for 20 are_idle "$child" 2; timed $? "$what: they were left there"
    stop $last
    above 2 strayed
}

without_rights() { # a user may put his own threads into SCHED_IDLE
    local elsewhere theirs
    what="a scheduler without rights, and a process that stands under"
    can_be_others || { skip "$what, for want of root"; return; }
    elsewhere=$(mktemp -d) && mkdir -m 700 "$elsewhere/base" && cp "$build/plain/load" "$build/plain/caladand" "$table" "$elsewhere"
    chmod 755 "$elsewhere" "$elsewhere"/* && chmod 700 "$elsewhere/base" && chown 65534 "$elsewhere/base"
    theirs=(env -u CALADAN_CLAIMS CALADAN_FOLDER="$elsewhere/base" setpriv --reuid 65534 --regid 65534 --clear-groups)
    go $life "${theirs[@]}" "$elsewhere/caladand" -n theirs -t "$elsewhere/mix.toml" -c "$managed" -k 1000 -g 50000 -u 1 -s $life
    scheduler=$last
    wait_for 20 test -S "$elsewhere/base/theirs/task-0"; timed $? "$what: it did not start: $(cat "$build/process.$processes")"
    go $life "${theirs[@]}" "$elsewhere/load" be -n theirs -u 1 -k 200 -s $life
    wait_for 20 child_of $last
    wait_for 10 are_idle "$child" 2; timed $? "$what: its threads are not in SCHED_IDLE, or not pinned"
    kill -TERM $last $scheduler
    wait $scheduler; note $? "$what: the scheduler's status"
    wait $last
    rm -rf "$elsewhere"
    no_reports
} 2> /dev/null

rules_of_under() { # see host/tests/under_test.c
    what="the rules of who stands under"
    timeout 600 "$bin/under_test" > "$build/process.rules" 2>&1; note $? "$what: $(cat "$build/process.rules")"
}

groups() { # see host/tests/groups_test.c
    what="scheduling groups"
    timeout 600 "$bin/groups_test" > "$build/process.groups" 2>&1; note $? "$what: $(cat "$build/process.groups")"
}

other_group() { # SCHED_IDLE says nothing between two scheduling groups side by side
    local group=/sys/fs/cgroup/cpu/caladan-$$
    what="another scheduling group"
    { [ -e /sys/fs/cgroup/cpu/cpu.idle ] && mkdir -p "$group/below"; } 2> /dev/null || { skip "$what, for want of rights, or of its folder"; return; }
    local enter='echo 0 > "$0/cgroup.procs" && exec "$@"'
    # both groups are our own: a session is a group beside them, where autogroups are on
    local above=(sh -c "$enter" "$group") below=(sh -c "$enter" "$group/below")
    start -g 100000 -u 1
    go $life "${below[@]}" "$bin/load" lc -n "$name" -u 0 -k 200 -q 100 -s $life
    wait_for 20 child_of $last
    timeout $life "${above[@]}" "$bin/load" be -n "$name" -u 1 -k 200 -s 0.3 > "$build/process.above" 2>&1
    timed $? "$what: who is in the group above it was not let in: $(cat "$build/process.above")"
    kill -9 "$child"
    wait $last
    go $life "${above[@]}" "$bin/load" lc -n "$name" -u 0 -k 200 -q 100 -s $life
    wait_for 20 child_of $last
    refuses "this process is in another scheduling group" "${below[@]}" "$bin/load" be -n "$name" -u 1 -k 200
    stop $last
    above 3 attached
    rmdir "$group/below" "$group"
} 2> /dev/null
