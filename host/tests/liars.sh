# liars.sh: processes that do not keep their word, beside honest ones and before honest successors.

bad() { # bad HOW STATUS WORDS NUMBER: an ill-behaved best-effort process beside an honest one, and an honest successor
    what="a process that is $1"
    begin -k 1000 -g 100000
    go $life "$bin/misbehave" "$name" 1 $life "$1"
    wait_for 20 child_of $last
    lc -s 1 > "$build/process.honest" 2>&1; timed $? "$what: the honest one: $(cat "$build/process.honest")"
    # The number that foreign hands over is that of its parent, which is $last.
    [ "$1" != foreign ] || [ "$(processors_of $last)" = "$(processors_of $$)" ]; note $? "$what: somebody else's thread was moved"
    [ "$2" = 0 ] || wait_for 20 is_gone "$child"; timed $? "$what: it does not end"
    kill -9 "$child" 2> /dev/null
    wait $last 2> /dev/null
    status=$?
    [ "$2" = 0 ] || [ $status = "$2" ]; timed $? "$what: it ended with $status, not $2"
    [ "$2" = 0 ] || says "caladand: process [0-9]+ of task 1 is killed: "
    works
    [ "$1" != deaf ] || late_leaver
    end
    above "$4" "$3"
} 2> /dev/null
late_leaver() { # how long the core was not left is counted, in time and in passes, of which a second has 10,000 at most
    wait_for 5 counts 'most_nanoseconds{step="free"}' 1000000000; timed $? "$what: $(metric 'most_nanoseconds{step="free"}') ns to leave a core"
    counts 'most_passes{step="free"}' 100; timed $? "$what: $(metric 'most_passes{step="free"}') passes to leave a core"
    counts 'latency_nanoseconds_count{step="free"}' 1; timed $? "$what: no core is counted as left"
}
processors_of() { grep Cpus_allowed_list "/proc/$1/status"; }

liar_is_gone() { # it showed the last place of one page, and ended: no core goes to that thread, to be left never
    what="a liar that is gone, where nobody is killed"
    start -g 20000
    "$bin/misbehave" "$name" 1 2 last_one > "$build/process.liar" 2>&1
    go $life "$bin/load" be -n "$name" -u 1 -k 200 -s $life
    wait_for 20 child_of $last
    serves 1
    stop $last
    above 1 "place too far"
    exactly 0 "worn out"
}

last_places() { # no liar ends a piece for the others
    what="processes that show the last place of their pages and end"
    start -k 100 -g 20000
    for ((i = 0; i < 4; i++)); do "$bin/misbehave" "$name" 1 1 last > "$build/process.liar$i" 2>&1; done
    stop
    grep -q "passes [0-9]* in 1 pieces" "$build/said"; timed $? "$what: pieces ended: $(head -n 1 "$build/said")"
    above 4 "place too far"
}

misses_of_another() { # who shows all the misses that a record may have, and ends: its successor still counts its own
    local before
    what="the successor of a process that showed too many misses"
    sed 's/^bandwidth_limit.*/bandwidth_limit = 1/' "$top/host/tables/mix.toml" > "$build/narrow.toml"
    table=$build/narrow.toml
    start -k 2000 -g 100000 -w 1000000
    "$bin/misbehave" "$name" 1 5 misses > "$build/process.liar" 2>&1
    wait_for 20 counts ended_total 1; timed $? "$what: its predecessor is not seen as ended"
    sleep 0.6
    before=$(metric 'actions_total{kind="cap"}')
    go $life "$bin/load" be -n "$name" -u 1 -k 200 -s $life -b
    wait_for 20 counts 'actions_total{kind="cap"}' $((${before:-0} + 4)); timed $? "$what: its misses do not count"
    stop $last
    above 1 "misses too many"
    table=$top/host/tables/mix.toml
}

endless_request() { # by caladan it has the core beside its own banned, also one that is guaranteed; not by assured
    local policy
    what="a request that never ends, beside a task that is guaranteed the other core"
    make_table lc,1,1,1000000 lc,1,1,1000000
    for policy in caladan assured; do
        begin -k 2000 -g 20000 --policy $policy
        go $life "$bin/misbehave" "$name" 0 $life deaf
        wait_for 20 only_child_of $last && deaf=$child
        wait_for 20 counts 'actions_total{kind="ban"}' 1; timed $? "$what: by $policy nothing is banned"
        if [ $policy = assured ]; then serves 1 -u 1; else
            lc -u 1 -s 1 > "$build/process.lc" 2>&1
            ! is_served "$build/process.lc"; note $? "$what: by $policy it is served too, and SECURITY says it may not be"
        fi
        kill -9 "$deaf"
        end
        exactly 0 killed
    done
    table=$top/host/tables/mix.toml
} 2> /dev/null

visitors() { # to connect is not to attach, and to close is to leave
    what="who connects and closes"
    begin -k 2000 -g 100000 -e -p 5000
    go $life "$bin/misbehave" "$name" 1 $life visits
    wait_for 20 only_child_of $last && visitor=$child
    sleep 0.3
    works
    kill -0 "$visitor" 2> /dev/null; note $? "$what: it was killed"
    go $life "$bin/misbehave" "$name" 1 $life closes
    wait_for 20 child_of $last && closer=$child
    wait_for 20 counts left_total 1; timed $? "$what: its task was not given up"
    works
    wait_for 20 has_pieces 2; timed $? "$what: no piece ended"
    kill -0 "$closer" 2> /dev/null; note $? "$what: who had left was killed"
    kill -9 "$visitor" "$closer"
    end
    exactly 0 killed
    above 1 left
}

silent_guests() { # who says nothing keeps nobody waiting, however often it comes
    what="who connects again and again, and says nothing"
    start -k 2000 -g 100000
    go $life "$bin/misbehave" "$name" 1 $life silent
    wait_for 20 only_child_of $last && visitor=$child
    sleep 0.5
    works
    kill -9 "$visitor"
    stop
    above 1 attached
    exactly 0 killed
}

storm() { # who attaches and leaves without a pause is let in a hundred times a second at most
    local from seconds
    what="a process that attaches and leaves again and again"
    start -k 2000 -g 20000
    from=$(cut -d' ' -f1 /proc/uptime)
    go $life "$bin/misbehave" "$name" 1 3 storms
    wait $last; timed $? "$what: it failed: $(cat "$build/process.$processes")"
    works
    seconds=$(awk -v from="$from" '{ printf "%d", $1 - from + 1 }' /proc/uptime)
    stop
    above 3 attached
    [ "$(said attached)" -le $((100 * seconds + 2)) ]; note $? "$what: it attached $(said attached) times in less than $seconds s"
}

punched() { # memory that is taken out of a segment would be fetched again by each pass: the kernel refuses it
    what="a process that would punch its segment away"
    begin -k 2000 -g 20000
    slower
    go $life "$bin/misbehave" "$name" 1 $((2 + slow / 4)) punches
    lc -s 1 > "$build/process.honest" 2>&1; timed $? "$what: the honest one: $(cat "$build/process.honest")"
    wait $last; timed $? "$what: it could, or was killed: $(cat "$build/said")"
    works
    end
}

strays() { # a thread that is moved from its processor sees it, and is pinned there again, while it has its core too
    what="threads that are moved elsewhere while they work"
    command -v taskset > /dev/null || { skip "$what, for want of taskset"; return; }
    start -k 2000 -g 100000
    rm -f "$counter"
    go $life "$bin/load" be -n "$name" -u 1 -k 200 -s $life -c "$counter"
    wait_for 20 child_of $last
    wait_for 20 counts_on 0; timed $? "$what: it never worked"
    wait_for 20 sees_that_it_strays "$child" "$build/process.$processes"; timed $? "$what: none saw it: $(cat "$build/process.$processes")"
    wait_for 20 has_pinned "$child" 2; timed $? "$what: they were left where they are"
    rm "$build/process.$processes" # it says that one ran elsewhere
    stop $last
    above 2 strayed
}
sees_that_it_strays() { # sees_that_it_strays PID FILE: its threads are moved to a processor that is nobody's, and one says so in its file
    local tid
    for tid in $(pinned_threads "$1"); do taskset -pc "${allowed[0]}" "$tid" > /dev/null 2>&1; done
    grep -q "runs on processor ${allowed[0]}, and has the core of processor" "$2"
}
pinned_threads() { grep -lE "^Cpus_allowed_list:[[:space:]]*(${managed//,/|})$" "/proc/$1/task/"*/status 2> /dev/null | cut -d/ -f5; }
has_pinned() { [ "$(pinned_threads "$1" | wc -l)" -ge "$2" ]; } # has_pinned PID NUMBER

unpinned() { # the kernel pins nobody: then nobody runs, and it is said
    what="threads that cannot be pinned"
    can_deny pin || return
    wrap=("$bin/deny" pin)
    begin -k 2000 -g 100000
    wrap=()
    lc -s 0.5 > "$build/process.honest" 2>&1; timed $? "$what: the honest one: $(cat "$build/process.honest")"
    end
    above 1 "not pinned"
    above 1 grant
    says "cannot be pinned to processor [0-9]+, and is parked again: Invalid argument"
    ! awk -F , '/^whole/ && $6 != 0 { ran = 1 } END { exit !ran }' "$record"/*.history; note $? "$what: one ran on a core"
}
