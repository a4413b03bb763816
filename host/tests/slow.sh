# slow.sh: nothing that a scheduler writes holds its passes up: neither a disk that sleeps, nor a reader who does not read.

# can_sleep FOLDER MS: sets wrap, so that the next scheduler's calls on files of FOLDER take so long.
can_sleep() {
    "$bin/slow" "$1" "$2" true 2> /dev/null || { skip "$what, for want of seccomp"; return 1; }
    wrap=("$bin/slow" "$1" "$2")
}
# is_within FILE MS: the longest time of a request of a latency-critical load
is_within() { awk -v most="$2" -v at="$(grep -oE '"max": [0-9]+' "$1" | grep -oE '[0-9]+')" 'BEGIN { exit !(at != "" && at <= most * 1000) }'; }
within() { is_within "$@"; timed $? "$what: a request waited for more than $2 ms: $(head -n 3 "$1")"; }

slow_record() { # a disk that cannot follow ends the record, and no pass waits for it
    local ends_with=3
    what="a record on a disk that takes one and a half seconds for each call"
    can_sleep "$build/record" 1500 || return
    begin -k 2000 -g 100000 -e -p 3000
    wrap=()
    wait_for 20 counts passes_total 1; timed $? "$what: there are no passes"
    go $life "$bin/load" be -n "$name" -u 1 -k 200 -s $life
    wait_for 20 child_of $last
    serves 3
    within "$build/process.lc" 2000
    only_child_of $scheduler && daemon=$child
    kill -TERM "$daemon"
    sleep 0.5
    kill -TERM "$daemon"
    wait_at_most 3 is_gone "$daemon"; timed $? "$what: told twice to end, it waits for the disk"
    stop $last
    says "piece-00000[0-9]: the disk is too slow for it: nothing is recorded any more"
    says "passes [0-9]+ in [2-9] pieces"
} 2> /dev/null

whole_pieces() { # what was whole when the disk could not follow is still written
    local each last ends_with=3
    what="whole pieces of a record whose disk cannot follow"
    can_sleep "$build/record" 400 || return
    begin -k 2000 -g 20000 -e -p 100
    wrap=()
    wait_for 20 grep -q "the disk is too slow for it" "$build/said"; timed $? "$what: it could: $(cat "$build/said")"
    last=$(grep -oE "piece-[0-9]+: the disk is too slow" "$build/said" | grep -oE "[1-9][0-9]*") # it could not begin any more
    wait_for 20 has_pieces $((${last:-0} - 2)); timed $? "$what: up to piece $last they are not written: $(ls "$record")"
    stop # which waits for the last one
    [ "$(pieces)" = $((${last:-0} - 1)) ]; timed $? "$what: up to piece $last they are not there: $(ls "$record")"
    for each in "$record"/*.history; do [ ! -e "$each" ] || is_legal "$table" "$each"; note $? "$what: $(basename "$each") is not legal"; done
}

slow_but_follows() { # the next piece begins while the last one is written, and each is whole
    what="a record on a disk that takes a third of a second for each call"
    can_sleep "$build/record" 350 || return
    begin -k 2000 -g 400000 -e -p 7500
    wrap=()
    go $life "$bin/load" be -n "$name" -u 1 -k 200 -s $life
    wait_for 60 has_pieces 2; timed $? "$what: there are no two pieces: $(cat "$build/said")"
    end $last
    ! grep -q "nothing is recorded" "$build/said"; timed $? "$what: $(cat "$build/said")"
    between_pieces 1000
}
between_pieces() { # between_pieces MS: passes of one piece and of the next are not further apart than that
    local each
    for each in "$record"/*.history; do grep '^pass,' "$each" | sed -n '1s/^/first,/p;$s/^/last,/p'; done \
        | awk -F , -v most="$1" '$1 == "first" && last && $3 - last > most * 1000000 { bad = 1 } $1 == "last" { last = $3; n++ } END { exit bad || n < 2 }'
    timed $? "$what: no pass for more than $1 ms"
}

slow_counters() { # they are read, and written to a disk that sleeps, and passes go on
    local reader
    what="counters on a disk that takes six tenths of a second for each call"
    can_sleep "$CALADAN_FOLDER" 600 || return
    begin -k 2000 -g 200000 -e
    wrap=()
    while :; do cat "$CALADAN_FOLDER/$name/metrics"; done > /dev/null 2>&1 &
    reader=$!
    go $life "$bin/load" be -n "$name" -u 1 -k 200 -s $life
    wait_for 20 child_of $last
    lc -s 3 > "$build/process.lc" 2>&1
    within "$build/process.lc" 900
    wait_for 20 counts passes_total 1; timed $? "$what: they are not there"
    wait_for 20 counts longest_gap_nanoseconds 1; timed $? "$what: the longest gap is not among them"
    kill $reader
    end $last
    within_passes 900
}
within_passes() { # within_passes MS: two passes of a piece are not further apart than that
    local each
    for each in "$record"/*.history; do
        awk -F , -v most="$1" '/^pass,/ { if (last && $2 - last > most * 1000000) bad = 1; last = $2 } END { exit bad || !last }' "$each"
        timed $? "$what: no pass for more than $1 ms in $(basename "$each")"
    done
}

unread_lines() { # nobody reads standard error, and it is full: a process that does not leave is killed, and others are served
    what="a scheduler whose standard error nobody reads"
    name=check$$-unread
    mkfifo "$build/unread"
    exec 8<> "$build/unread"
    dd if=/dev/zero of="$build/unread" bs=4096 oflag=nonblock 2> /dev/null
    timeout -k 100 $life "$bin/caladand" -n "$name" -t "$table" -c "$managed" "${own[@]}" -k 200 -g 100000 > "$build/said" 2>&8 &
    scheduler=$!
    running+=($scheduler)
    wait_for 20 has_begun
    go $life "$bin/misbehave" "$name" 1 $life deaf
    deaf=$last
    wait_for 20 child_of $deaf
    serves 2
    wait_for 20 counts killed_total 1; timed $? "$what: nobody was killed"
    wait_for 20 is_gone "$child"; timed $? "$what: it does not end"
    kill -9 "$child"
    wait $deaf
    works
    stop
    exec 8<&-
    rm "$build/unread"
} 2> /dev/null

lines_lost() { # the queue is bounded: see host/tests/lines_test.c
    what="lines that nobody reads"
    timeout 600 "$bin/lines_test" > "$build/process.lines" 2>&1; note $? "$what: $(cat "$build/process.lines")"
    timeout 600 "$bin/lines_test" unwaited > "$build/process.lines" 2>&1; note $? "$what, and which waits for nobody: $(cat "$build/process.lines")"
}

calls() { # the scheduler's own thread opens, writes and renames nothing (but /proc, of a thread that leaves its core late), and
    # one call a millisecond asks for all processes
    local task loads=() proc='"/proc/([0-9]+/(task/[0-9]+/(schedstat|stat|wchan)|status)|thread-self/schedstat)"'
    what="the calls that a scheduler makes in a second"
    command -v strace > /dev/null || { skip "$what, for want of strace"; return; }
    table=$top/host/tables/crowd.toml
    begin -k 2000 -g 1000000
    for task in 0 2; do go $life "$bin/load" lc -n "$name" -u $task -k 200 -q 10 -s $life; loads+=($last); done
    wait_for 20 counts attached_total 2; timed $? "$what: two did not attach"
    only_child_of $scheduler
    timeout -s INT 2 strace -qq -o "$build/calls" -p "$child" 2> /dev/null
    if grep -q nanosleep "$build/calls"; then # it sleeps between passes
        ! grep -E '^(open|openat|write|pwrite64|writev|fsync|rename|renameat|renameat2|poll|ppoll|mincore)\(' "$build/calls" | grep -vE "$proc" > "$build/other_calls"
        note $? "$what: $(head -n 9 "$build/other_calls")"
    else
        skip "$what, for want of rights"
    fi
    stop "${loads[@]}"
    table=$top/host/tables/mix.toml
}
