# moves.sh: who moves threads, and who makes that slow.

mover() { # a thread of its own pins, wakes and interrupts
    what="a scheduler with a mover, $main"
    [ "$count" -ge 4 ] || { skip "$what, for want of four processors"; return; }
    begin -k 2000 -g 10000 -p 5000 -m "${allowed[0]}" "$@"
    go $life "$bin/load" be -n "$name" -u 1 -k 200 -s $life
    go $life "$bin/load" lc -n "$name" -u 0 -k 200 -q 2000 -s $life
    wait_for 80 has_pieces 2; timed $? "$what: there are no two pieces"
    end
    above 1 grant
    above 2 attached
    exactly 0 killed
}

order_of_moves() { # see host/tests/moves_test.c
    what="the order of moves"
    timeout 600 "$bin/moves_test" > "$build/process.moves" 2>&1; note $? "$what: $(cat "$build/process.moves")"
}

just_left() { # see host/tests/pass_test.c
    what="who may be sent a command"
    timeout 600 "$bin/pass_test" > "$build/process.pass" 2>&1; note $? "$what: $(cat "$build/process.pass")"
}

awake() { # who has threads pinned that run is granted nothing for a while, each time after the second: 40 times a second
    local from
    what="a process whose threads do not sleep when they are pinned"
    start -k 2000 -g 20000
    from=$SECONDS
    go $life "$bin/misbehave" "$name" 1 $life awake
    wait_for 20 only_child_of $last
    wait_for 20 counts slow_pins_total 2; timed $? "$what: no pinning was slow"
    serves 2
    ! counts slow_pins_total $((80 * (SECONDS - from + 1))); note $? "$what: it slowed $(metric slow_pins_total) pinnings in $((SECONDS - from)) s"
    kill -9 "$child"
    stop
    says "is granted nothing for a while: it takes long, since it does not sleep"
} 2> /dev/null

first_in_first_out() { # a class in which the kernel puts aside who spins
    what="a scheduler that spins in SCHED_FIFO"
    chrt -f 1 true 2> /dev/null || { skip "$what, for want of rights, or of chrt"; return; }
    wrap=(chrt -f 1)
    start -s 1
    wrap=()
    wait $scheduler; note $? "$what: its status"
    says "is put aside for 50 ms of each second"
    what="a scheduler in SCHED_FIFO that makes a pass each 20 microseconds"
    wrap=(chrt -f 1)
    start -s 1 -g 20000
    wrap=()
    wait $scheduler
    says "is put aside for 50 ms of each second"
    what="a scheduler in the normal class"
    start -g 100000
    stop
    ! grep -q "put aside" "$build/said"; note $? "$what: $(cat "$build/said")"
}

has_child() { # a child of a process hands in a request: it is refused, and harms nobody
    what="the child of a process that is attached"
    begin -k 2000 -g 100000
    go $life "$bin/load" be -n "$name" -u 1 -k 200 -s 2 -f
    serves 1
    wait $last; timed $? "$what: it was not refused, or the process failed: $(cat "$build/process.$processes")"
    end
}

is_off_cores() { # is_off_cores NUMBER: a thread is there, and is not pinned to a managed processor
    local cpus
    cpus=$(sed -n 's/^Cpus_allowed_list:[[:space:]]*//p' "/proc/$1/status" 2> /dev/null)
    [ -n "$cpus" ] && [[ ! ,$managed, == *",$cpus,"* ]]
}
# starts HOW..: what a thread with a core starts is not left on the core's processor: the runtime starts it elsewhere, or it
# is put back.
starts() {
    local how number
    for how; do
        what="what is started on a core by $how"
        start -k 2000 -g 100000
        go $life "$bin/load" be -n "$name" -u 1 -k 200 -s $life -p $how
        wait_for 30 grep -q "load: started" "$build/process.$processes"; timed $? "$what: nothing was started: $(cat "$build/process.$processes")"
        number=$(sed -n 's/^load: started //p' "$build/process.$processes")
        [ $how = exec ] && wait_for 20 grep -qx sleep "/proc/$number/comm"
        case $how in vfork) ;; fork | rt_*) is_off_cores "$number"; timed $? "$what: it has the core's processor" ;; *)
            wait_for 4 is_off_cores "$number"; timed $? "$what: it is left on the core's processor"
            says "had a managed processor and no core were put elsewhere, the last one $number" ;;
        esac
        [ $how = thread ] || [ $how = rt_thread ] || kill -9 "$number" 2> /dev/null
        stop $last
        case $how in fork | rt_* | vfork) exactly 0 "put back" ;; *) above 1 "put back" ;; esac
        exactly 0 killed
    done
}
started() { # the sanitizers have a vfork and an exec of their own
    starts rt_thread rt_spawn
    local bin=$build/plain
    starts thread fork spawn exec vfork
}

notices_closing() { # see host/tests/watch_test.c
    what="a runtime that has no connection any more"
    timeout 600 "$bin/watch_test" > "$build/process.watch" 2>&1; note $? "$what: $(cat "$build/process.watch")"
}

closes_all() { # a process that closes all its files keeps its task and works, or loses it and notices that
    local i
    what="a process that closes all its files when it has started"
    start -k 2000 -g 50000
    for ((i = 0; i < 4; i++)); do
        rm -f "$counter"
        go $life "$bin/load" be -n "$name" -u 1 -k 200 -s $life -z -e wait -c "$counter"
        wait_for 20 child_of $last
        wait_for 20 has_closed_all "$child"; timed $? "$what: it has files: $(ls -l "/proc/$child/fd")"
        renewed
        wait_for 5 keeps_or_notices "$child"; timed $? "$what: it runs on without its task: $(grep -s State "/proc/$child/task/"*/status)"
        kill -9 "$child"
        wait $last
        rm "$build/process.$processes" # threads that lost their cores may have seen it before they were told
    done
    works
    stop
    exactly 0 killed
} 2> /dev/null
has_closed_all() { [ "$(ls "/proc/$1/fd" 2> /dev/null | wc -l)" = 3 ]; }
keeps_or_notices() { { [ "$(metric 'attached{task="1"}')" = 1 ] && counts_on; } || is_asleep "$1"; } # keeps_or_notices PID
