# ends.sh: patience, the ends of pieces, and the end of the scheduler.

# A scheduler, and an honest best-effort and an honest latency-critical process, are stopped together and go on together.
stand_still() {
    local all status=0
    what="honest processes, where the machine stands still"
    start -k 1000 -g 20000
    only_child_of $scheduler && all=$child
    go $life "$bin/load" be -n "$name" -u 1 -k 30000 -s $life -h
    wait_for 20 child_of $last; be=$last all="$all $child"
    go $life "$bin/load" lc -n "$name" -u 0 -k 200 -q 300 -s $life
    wait_for 20 child_of $last; all="$all $child"
    for ((i = 0; i < 4; i++)); do
        sleep "0.$((RANDOM % 40 + 10))"
        kill -STOP $all
        sleep 1.2
        kill -CONT $all
    done
    sleep 0.2
    for each in $all; do kill -0 "$each" 2> /dev/null || status=1; done
    timed $status "$what: one ended"
    stop $last $be
    exactly 0 killed
    above 1 revoke
    above 1100000000 "longest gap between passes"
}

# A deaf process is to leave a core. The scheduler stands still; the process ends meanwhile, and its successor attaches first.
predecessor() {
    what="the successor of a deaf process"
    start -k 2000 -g 20000
    only_child_of $scheduler && daemon=$child
    go $life "$bin/misbehave" "$name" 1 $life deaf
    wait_for 20 child_of $last && deaf=$child
    go $life "$bin/load" lc -n "$name" -u 0 -k 200 -q 2000 -s $life
    honest=$last
    wait_for 20 counts 'actions_total{kind="revoke"}' 1; timed $? "$what: nothing was revoked"
    kill -STOP "$daemon"
    kill -9 "$deaf"
    go $life "$bin/load" be -n "$name" -u 1 -k 200 -s 1
    wait_for 20 asks $last; timed $? "$what: it does not come"
    sleep 2.5
    kill -CONT "$daemon"
    wait $last; timed $? "$what: it ended with another status: $(grep killed "$build/said")"
    stop $honest
} 2> /dev/null

# Tasks: 0 is guaranteed a core, 1 is deaf, 2 is honest; both of best effort have a core, and then a request of 0 comes. Sets
# deaf, and loads.
deaf_takes() { # deaf_takes COMMAND OPTION..: COMMAND starts the scheduler
    local granted='actions_total{kind="grant"}'
    "$1" -g 1000000 --policy assured "${@:2}"
    go $life "$bin/misbehave" "$name" 1 $life deaf
    wait_for 20 only_child_of $last && deaf=$child
    wait_for 20 counts "$granted" 1; timed $? "$what: the deaf one was granted no core"
    go $life "$bin/load" be -n "$name" -u 2 -k 200 -s $life
    loads=("$last")
    wait_for 20 counts "$granted" 2; timed $? "$what: the honest one was granted no core"
    go $life "$bin/load" lc -n "$name" -u 0 -k 200 -q 2000 -s $life
    loads+=("$last")
    wait_for 20 counts 'actions_total{kind="revoke"}' 1; timed $? "$what: nothing was revoked"
}
# given_after HISTORY: how far it comes, as STEP MS PASSES: the core of thread 1 is revoked for task 0 (1), and nothing else is
# revoked or granted until it is free, MS later (2); thread 0 is granted it, PASSES later (3), and is seen on it (4).
given_after() {
    awk -F , '
        $1 == "pass" { pass++; now = $2 }
        $1 == "grant" && $3 == 1 { core = $2 }
        step == 0 && $1 == "revoke" { if ($2 != core || $3 != "preempt" || $4 != 0) exit; step = 1; asked = now; next }
        step == 1 && ($1 == "revoke" || $1 == "grant") { exit }
        step == 1 && $1 == "free" { if ($2 != core) exit; step = 2; freed = pass; took = now - asked }
        step == 2 && $1 == "grant" { if ($2 != core || $3 != 0) exit; step = 3; later = pass - freed }
        step == 3 && $1 == "whole" && $2 == 0 && $6 != 0 { step = 4; exit }
        END { print step + 0, int(took / 1000000), later + 0 }' "$1"
}
given_again() { # a deaf thread takes a guarantee until -k ends its process: the next passes give it; without -k none does
    local policy=assured judge=note from span step took later loads=()
    what="a guarantee that a deaf thread takes, with -k"
    make_table "lc,1,1,$long" be,0,1,0 be,0,1,0
    deaf_takes begin -k 500 -e
    from=$SECONDS
    wait_at_most 4 is_gone "$deaf"; timed $? "$what: its process is not killed in four and a half seconds"
    wait_for 5 counts 'actions_total{kind="grant"}' 3; timed $? "$what: no core is granted after that"
    span=$((SECONDS - from + 1))
    [ ${#late[@]} = 0 ] || judge=timed # what was not there in time is not judged otherwise
    end "${loads[@]}"
    exactly 1 killed
    head -n 1 "$record/table.toml" | grep -q "^# Audit it with --policy assured, rule "; $judge $? "$what: its table does not say who made it"
    read -r step took later < <(given_after "$record/piece-000001.history")
    [ "$step" = 4 ] && [ "$took" -ge 450 ] && [ "$later" -le 3 ]
    $judge $? "$what: the record comes to step $step: a core free after $took ms, and granted $later passes later"
    [ "$took" -le 4000 ]; timed $? "$what: the core is free after $took ms"

    what="a guarantee that a deaf thread takes, without -k"
    deaf_takes start
    sleep $span
    renewed
    ! counts 'actions_total{kind="free"}' 1; note $? "$what: a core is left"
    ! counts 'actions_total{kind="grant"}' 3; note $? "$what: a core is granted"
    kill -0 "$deaf"; note $? "$what: the process was ended"
    kill -9 "$deaf"
    wait_for 20 counts 'actions_total{kind="grant"}' 3; timed $? "$what: nor is one granted when it has ended"
    stop "${loads[@]}"
    exactly 0 killed
    table=$top/host/tables/mix.toml
} 2> /dev/null

unkillable() { # nobody can be killed: a piece ends without who does not leave, and so does the scheduler
    what="a process that can neither be killed nor leaves"
    can_deny kill || return
    wrap=("$bin/deny" kill)
    begin -k 500 -g 50000 -p 3000
    wrap=()
    go $life "$bin/misbehave" "$name" 1 $life deaf
    wait_for 20 child_of $last
    deaf=$last
    go $life "$bin/load" lc -n "$name" -u 0 -k 200 -q 2000 -s $life
    wait_for 60 has_pieces 2; timed $? "$what: no second piece ended: $(tail -n 3 "$build/said")"
    wait_for 60 counts 'actions_total{kind="grant"}' 20; timed $? "$what: the other one is granted nothing"
    says "of task 1 cannot be killed \(Operation not permitted\)"
    says "of task 1 is written off"
    kill -0 $deaf 2> /dev/null; timed $? "$what: it ended, and nothing was shown"
    end $deaf $last
}

# What others take of the scheduler's processor does not lengthen its patience, nor its end: five times the patience by the
# wall clock, and some seconds in which the scheduler has its turns and the test looks.
crowded_scheduler() {
    local from
    what="a deaf process beside sixteen loops on the scheduler's processor"
    { [ "$count" -ge 3 ] && command -v taskset > /dev/null; } || { skip "$what, for want of three processors, or of taskset"; return; }
    start -k 500 -g 0
    go $life "$bin/misbehave" "$name" 1 $life deaf
    wait_for 20 only_child_of $last && deaf=$child
    wait_for 20 counts 'actions_total{kind="grant"}' 2; timed $? "$what: it was granted no cores"
    spin_on "${own[1]}" 16
    go $life "$bin/load" lc -n "$name" -u 0 -k 200 -q 2000 -s $life
    wait_for 60 counts 'actions_total{kind="revoke"}' 1; timed $? "$what: nothing was revoked"
    wait_at_most 4 is_gone "$deaf"; timed $? "$what: it is not killed in four and a half seconds"
    says "is killed: thread [0-9]+ did not leave core [01] in [0-9]+ ms, and ran for [0-9]+ ms of them"
    go $life "$bin/misbehave" "$name" 1 $life deaf
    wait_for 60 counts attached_total 3; timed $? "$what: the next one does not attach"
    only_child_of $scheduler && daemon=$child
    from=$SECONDS
    kill -TERM "$daemon"
    wait_at_most 9 is_gone "$daemon"; timed $? "$what: the scheduler has not ended after $((SECONDS - from)) s"
    unspin
    kill -9 "$deaf"
    stop
    above 1 killed
} 2> /dev/null

dumped() { # who dumps core is not killed for it, and its cores are free meanwhile
    local folder=$build/dump size dumper
    what="a process that dumps core"
    mkdir -p "$folder"
    { [ "$(cat /proc/sys/kernel/core_pattern)" = core ] && (ulimit -c unlimited); } 2> /dev/null || { skip "$what, since core files are elsewhere, or may not be long"; return; }
    start -k 100 -g 20000
    (cd "$folder" && ulimit -c unlimited && exec timeout -k 100 $life "$build/plain/misbehave" "$name" 1 $life dumps) > "$build/process.dump" 2>&1 &
    dumper=$!
    wait_for 60 counts attached_total 1; timed $? "$what: it does not attach: $(cat "$build/process.dump")"
    go $life "$bin/load" lc -n "$name" -u 0 -k 200 -q 2000 -s $life
    wait $dumper
    size=$(cat "$folder"/core* | wc -c)
    rm -rf "$folder"
    [ "$size" -gt 530000000 ]; timed $? "$what: of its core file there are $size bytes"
    says "process [0-9]+ of task 1 dumps core: its cores are free at once"
    stop $last
    exactly 0 killed
    above 1 "dumped core"
} 2> /dev/null

told_beside_deaf() { # told_beside_deaf MILLISECONDS: $daemon is told to end, beside one that does not leave in its patience
    start -k "$1" -g 50000
    only_child_of $scheduler && daemon=$child
    go $life "$bin/misbehave" "$name" 1 $life deaf
    wait_for 20 counts 'actions_total{kind="grant"}' 1; timed $? "$what: nothing was granted"
    kill -TERM "$daemon"
    sleep 0.3
}

told_twice() { # the second signal waits for nobody
    what="a scheduler that is told twice to end, beside a process that does not leave"
    told_beside_deaf 2000
    kill -TERM "$daemon"
    wait $scheduler; note $? "$what: its status"
    says "of task 1 is (written off|killed)" # killed, where both signals came as one
    all_end
    no_reports
} 2> /dev/null

late_guests() { # who comes while a piece ends is not let in: one after the other would keep it open
    what="a process that attaches while a piece ends"
    told_beside_deaf 1000
    judge=timed refuses "there is no scheduler of that name" "$bin/load" lc -n "$name" -u 0 -k 200
    wait $scheduler; note $? "$what: its status"
    exactly 1 attached
    all_end
    no_reports
} 2> /dev/null

ends_of_pieces() { # see host/tests/ends_test.c
    what="the end of a piece"
    timeout 600 "$bin/ends_test" > "$build/process.ends" 2>&1; note $? "$what: $(cat "$build/process.ends")"
}

hang_up() { # SIGHUP is SIGTERM: the piece is whole
    what="a scheduler whose terminal hangs up"
    begin -k 1000 -g 100000
    lc -s 0.2 > "$build/process.lc" 2>&1
    only_child_of $scheduler
    kill -HUP "$child"
    wait $scheduler; note $? "$what: its status"
    end 2> /dev/null
}

# ---- what runtimes do without a scheduler ----

does_run() { # does_run PID: a thread of it runs, or waits for a processor, but for the first, which only looks on
    local each
    for each in "/proc/$1/task/"*/status; do
        [ "$each" = "/proc/$1/task/$1/status" ] || ! grep -qs "^State:[[:space:]]*R" "$each" || return 0
    done
    return 1
}
is_asleep() { # none does, twice, and its work stands meanwhile
    local before
    before=$(counter)
    ! does_run "$1" || return 1
    sleep 0.2
    ! does_run "$1" && [ "$(counter)" = "$before" ]
}
is_unpinned() { # no thread of the process is pinned
    local each
    for each in "/proc/$1/task/"*/status; do [ "$(grep -s Cpus_allowed_list "$each")" = "$(processors_of $$)" ] || return 1; done
}
begin_endless() { # begin_endless WHAT: a best-effort process that outlives its scheduler, which is killed
    rm -f "$counter"
    start -k 1000 -g 20000
    only_child_of $scheduler && daemon=$child
    go $life "$bin/load" be -n "$name" -u 1 -k 200 -s $life -c "$counter" -e "$1"
    wait_for 20 child_of $last && runtime=$child
    wait_for 20 counts_on 0; timed $? "$what: it never worked"
    kill -9 "$daemon"
    wait $scheduler 2> /dev/null
}
end_endless() { kill -9 "$runtime"; wait; no_reports; rm -rf "${CALADAN_FOLDER:?}/$name"; } 2> /dev/null

orphans() {
    local before
    what="a runtime that waits when its scheduler is killed"
    begin_endless wait
    wait_for 20 is_asleep "$runtime"; timed $? "$what: it runs on: $(grep -s State "/proc/$runtime/task/"*/status)"
    wait_for 20 is_unpinned "$runtime"; timed $? "$what: it is still pinned"
    end_endless
    what="a runtime that runs when its scheduler is killed"
    begin_endless run
    wait_for 20 is_unpinned "$runtime"; timed $? "$what: it is still pinned"
    wait_for 20 counts_on; timed $? "$what: it does not work"
    end_endless
    what="a runtime that asks for the next scheduler, which does not answer"
    begin_endless seek
    wait_for 20 is_unpinned "$runtime"; timed $? "$what: it is still pinned"
    rm -f "$CALADAN_FOLDER/$name/"* "$build/silent"
    "$bin/impostor" "$name" silent 1 > "$build/silent" 2>&1 &
    wait_for 20 grep -q silent "$build/silent"; timed $? "$what: it does not ask"
    sleep 0.5
    before=$(counter) # the silence lasts for eight seconds
    wait_at_most 4 counts_on "$before"; timed $? "$what: its threads stand still meanwhile"
    kill $! 2> /dev/null
    end_endless
    what="a runtime that attaches to the next scheduler"
    begin_endless again
    wait_for 20 is_asleep "$runtime"; timed $? "$what: it runs on without one"
    start_as "$name" -k 2000 -g 20000
    wait_for 20 counts attached_total 1; timed $? "$what: it did not attach"
    wait_for 20 counts_on; timed $? "$what: it does not work: $(cat "$build/said")"
    serves 1
    stop $last
    above 1 revoke
    exactly 0 killed
}

# silent_scheduler [OPTION..]: one that is stopped shows nothing: threads go on without it, or wait, and come back to it
silent_scheduler() {
    local daemon after
    for after in run wait; do
        what="a runtime whose scheduler is stopped, and which is to $after"
        rm -f "$counter"
        begin -k 2000 -g 20000 "$@"
        go $life "$bin/load" be -n "$name" -u 1 -k 200 -s $life -c "$counter" -e $after -l 200
        wait_for 20 child_of $last && runtime=$child
        wait_for 20 counts_on 0; timed $? "$what: it never worked"
        wait_for 20 has_pinned "$runtime" 2; timed $? "$what: it has no two cores"
        only_child_of $scheduler && daemon=$child
        kill -STOP "$daemon"
        wait_for 5 is_unpinned "$runtime"; timed $? "$what: it stays on its cores"
        if [ $after = run ]; then wait_for 5 counts_on; else wait_for 5 is_asleep "$runtime"; fi
        timed $? "$what: it does something else"
        kill -CONT "$daemon"
        wait_for 5 has_pinned "$runtime" 2; timed $? "$what: it does not come back"
        wait_for 5 counts_on; timed $? "$what: it does not work"
        serves 1
        end $last
        exactly 0 killed
        above 1 grant
    done
}

is_at() { [ "$(sed -n 's/^Cpus_allowed_list:[[:space:]]*//p' "/proc/$1/status")" = "$2" ]; } # is_at PID PROCESSORS
moved() { # who moves the scheduler, or one of its clerks, does not keep it there
    local each before
    what="a scheduler that is moved to a processor that it manages"
    { [ "$count" -ge 3 ] && command -v taskset > /dev/null; } || { skip "$what, for want of three processors, or of taskset"; return; }
    start -k 1000 -g 100000
    only_child_of $scheduler && daemon=$child
    wait_for 20 counts passes_total 1; timed $? "$what: it does not count"
    for each in "/proc/$daemon/task/"*; do taskset -pc "${managed#*,}" "${each##*/}" > /dev/null 2>&1; done
    wait_for 5 is_at "$daemon" "${own[1]}"; timed $? "$what: it is left there"
    says "the scheduler was moved to processor ${managed#*,}, and went back"
    wait_for 5 are_elsewhere "$daemon"; timed $? "$what: a clerk is left there: $(grep Cpus_allowed_list "/proc/$daemon/task/"*/status)"
    works
    stop
    above 2 "moved itself back"
}
are_elsewhere() { ! grep -qE "^Cpus_allowed_list:[[:space:]]*${managed#*,}\$" "/proc/$1/task/"*/status; }

processors() { # without -o the scheduler stays off what it manages
    local each theirs
    what="a scheduler without a processor of its own"
    [ "$count" -ge 3 ] || { skip "$what, for want of three processors"; return; }
    local own=()
    start -g 100000
    only_child_of $scheduler
    theirs=$(sed -n 's/^Cpus_allowed_list:\t//p' "/proc/$child/status")
    local allowed=() range cpu
    for range in ${theirs//,/ }; do for ((cpu = ${range%-*}; cpu <= ${range#*-}; cpu++)); do allowed+=("$cpu"); done; done
    for each in ${managed//,/ }; do [[ " ${allowed[*]} " != *" $each "* ]]; note $? "$what: it may run on processor $each"; done
    stop
}
