# runs.sh: honest processes, which come, go and die.

long_run() { # long_run PASSES: pieces of so many, until there are four
    what="a run of four pieces of $1 passes, $main"
    begin -k 2000 -g 10000 -p "$1"
    go $life "$bin/load" be -n "$name" -u 1 -k 200 -s $life
    go $life "$bin/load" lc -n "$name" -u 0 -k 200 -q 2000 -s $life
    wait_for 80 has_pieces 4; timed $? "$what: there are no four pieces"
    end
    above $((4 * $1)) passes
    above 1 grant
    above 2 attached
}

by_assured() { # by the other policy: legal by that one, and not by Caladan's
    local policy=assured each others=0 judge=note
    what="a run by the assured policy, $main"
    begin -k 2000 -g 10000 -p 20000 --policy $policy
    go $life "$bin/load" be -n "$name" -u 1 -k 200 -s $life
    go $life "$bin/load" lc -n "$name" -u 0 -k 200 -q 2000 -s $life
    wait_for 80 has_pieces 4; timed $? "$what: there are no four pieces"
    end
    above 1 revoke
    has_pieces 1 || judge=timed # what is not there is not judged otherwise
    grep -qx "# Audit it with --policy assured, rule 2." "$record/table.toml" && is_legal "$record/table.toml" "$record/piece-000001.history"
    $judge $? "$what: its table does not say who made it"
    policy=caladan
    for each in "$record"/piece*.history; do is_legal "$table" "$each" || others=$((others + 1)); done
    [ $others -ge 1 ]; $judge $? "$what: each piece is legal by Caladan's policy too"
}

deaths() { # 20 times: a process attaches, and is killed at any moment; each second one has a core, or had one
    what="20 deaths on $main"
    begin -k 2000 -g 100000
    go $life "$bin/load" be -n "$name" -u 1 -k 200 -s $life
    for ((i = 0; i < 20; i++)); do
        go 60 "$bin/load" lc -n "$name" -u 0 -k 200 -q 20000 -s 50
        wait_for 20 child_of $last; timed $? "$what: one does not begin"
        [ $((i % 2)) = 0 ] || { wait_for 20 has_pinned "$child" 1; timed $? "$what: one is granted no core"; }
        sleep "0.0$((RANDOM % 90 + 10))"
        kill -9 "$child" 2> /dev/null
        wait $last
    done 2> /dev/null
    lc -s 1 > "$build/process.after" 2>&1; timed $? "$what: the last process: $(cat "$build/process.after")"
    end
    above 12 attached # who is killed before the scheduler has heard of it does not count
    # Who is killed closes its connection a moment before it has ended, and counts as one that left where that is seen first.
    [ $(($(said ended) + $(said left))) -ge $(($(said attached) - 2)) ]
    timed $? "$what: those that ended or left are not those that had attached: $(head -n 5 "$build/said")"
}

come_and_go() {
    what="two runtimes that come and go on $main"
    begin -k 2000 -g 100000 -y 30000
    for ((i = 0; i < 4; i++)); do
        go 30 "$bin/load" be -n "$name" -u 1 -k 200 -s 0.7
        go 30 "$bin/load" lc -n "$name" -u 0 -k 200 -q 2000 -s 0.1
        wait $last; timed $? "$what: a latency-critical one failed"
        wait_for 5 has_ended 1
    done
    end
    above 8 attached
}

bandwidth() { # the best-effort task shows misses, and the table's limit is low
    what="a limit of bandwidth"
    sed 's/^bandwidth_limit.*/bandwidth_limit = 100/' "$top/host/tables/mix.toml" > "$build/narrow.toml"
    table=$build/narrow.toml
    begin -k 2000 -g 100000 -w 1000000 -b 1000000
    go $life "$bin/load" be -n "$name" -u 1 -k 200 -s $life -b
    wait_for 20 child_of $last
    lc -s 1 > "$build/process.honest" 2>&1; timed $? "$what: the other one: $(cat "$build/process.honest")"
    wait_for 20 has_pieces 2; timed $? "$what: there are no two pieces"
    end
    above 1 cap
    table=$top/host/tables/mix.toml
}

files_like() { ls -l "/proc/$1/fd" 2> /dev/null | grep -c "$2"; } # files_like PID WORD: how many of its open files are such
knows_some() { [ "$(files_like "$1" pidfd)" != 0 ]; } # knows_some PID: the scheduler has the file of a process; its clerk has another
knows_none() { ! knows_some "$1"; }
asks() { only_child_of "$1" && [ "$(files_like "$child" socket)" -gt "$(files_like $$ socket)" ]; } # asks PID: its child
out_of_files() { # a process ends when there is neither a file nor memory for a new segment: the scheduler goes on
    local waiter
    what="a scheduler that can open nothing any more"
    command -v prlimit > /dev/null || { skip "$what, for want of prlimit"; return; }
    start -k 2000 -g 50000
    only_child_of $scheduler && daemon=$child
    go $life "$bin/load" be -n "$name" -u 1 -k 200 -s $life
    wait_for 20 child_of $last
    wait_for 20 knows_some "$daemon"; timed $? "$what: it does not know the process"
    prlimit --pid "$daemon" --nofile=3:; note $? "$what: it has no limit"
    kill -9 "$child"
    wait_for 20 knows_none "$daemon"; timed $? "$what: it does not give the process up: $(cat "$build/said")"
    lc -s 0.2 > "$build/process.lc" 2>&1 & # it waits until there are files
    waiter=$!
    wait_for 20 asks $waiter; timed $? "$what: nobody waits"
    sleep 0.5
    kill -0 "$daemon" 2> /dev/null; note $? "$what: it ended: $(cat "$build/said")"
    prlimit --pid "$daemon" --nofile=100:
    works
    wait $waiter; timed $? "$what: who waited: $(cat "$build/process.lc")"
    stop
    above 2 attached
} 2> /dev/null

stops_and_starts() { # a runtime that is stopped leaves nothing, and another one may be started
    what="a process that starts and stops its runtime, $main"
    start -k 2000 -g 50000
    timeout -k 5 300 "$bin/load" be -n "$name" -u 1 -k 200 -t > "$build/process.stops" 2>&1; timed $? "$what: $(cat "$build/process.stops")"
    works
    stop
    exactly 6 attached
    exactly 0 killed
}

blocked_signals() { # servers that take signals by a file block all of them before they start anything
    what="a runtime whose main thread has blocked all signals"
    start -k 1000 -g 50000
    go $life "$bin/load" be -n "$name" -u 1 -k 200 -s $life -a
    wait_for 20 child_of $last
    serves 1
    kill -TERM $scheduler
    wait $last; timed $? "$what: it ended with another status: $(tail -n 3 "$build/said")"
    stop
    above 1 revoke
    exactly 0 killed
}
