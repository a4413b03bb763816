# common.sh: what the tests of host/check share: schedulers and processes of a run, and what is asked of them.

spinners=() child=none deaf=none daemon=none runtime=none visitor=none closer=none # processes that a test could not start are none
life=600 # the seconds of a process that lives until its test ends it, however slow the machine is

# refuses WORDS COMMAND..: it prints one line with WORDS, ends with status 2, and leaves nothing; with judge=timed that needs
# time.
refuses() {
    local words=$1
    shift
    timeout -k 5 300 "$@" > "$build/out" 2> "$build/err"
    [ $? = 2 ] && [ "$(wc -l < "$build/err")" = 1 ] && [ ! -s "$build/out" ] && grep -qF -- "$words" "$build/err"
    ${judge:-note} $? "'$words' of $* ($(head -n 3 "$build/err"))"
}
daemon() { echo "$bin/caladand" -n "$name" -t "${2-$table}" -c "$1"; } # daemon CPUS [TABLE]: its words

start() { # start OPTION..: a scheduler; ${wrap[@]} stands before its words, if that is set
    name=check$$-$((number = ${number-0} + 1))
    start_as "$name" "$@"
}
start_as() { # start_as NAME OPTION..
    name=$1
    shift
    timeout -k 100 $life "${wrap[@]}" "$bin/caladand" -n "$name" -t "$table" -c "$managed" "${own[@]}" "$@" > "$build/said" 2>&1 &
    scheduler=$!
    running+=($scheduler)
    wait_for 20 has_begun
}
has_begun() { is_there "$name" || is_gone $scheduler; } # or it has ended
# can_deny WHAT: the machine lets a process be refused something, as host/tests/deny.c does it; else the test is not run.
can_deny() { "$bin/deny" "$1" true 2> /dev/null && return; skip "$what, for want of seccomp"; return 1; }
begin() { # begin OPTION..: a scheduler that records
    rm -rf "$build/record"
    mkdir "$build/record"
    start -r "$build/record" "$@"
    record=$build/record/$name-1
}
go() { # go SECONDS PROGRAM WORD..: a process of the run, in the background; its number is $last
    processes=$((${processes-0} + 1)) # here, since what is in the background counts for itself alone
    timeout -k 100 "$1" "${@:2}" > "$build/process.$processes" 2>&1 &
    last=$!
    running+=($last)
}
lc() { "$bin/load" lc -n "$name" -u 0 -k 200 -q 2000 "$@"; }
# The process that timeout runs: only once it is there, and has attached.
only_child_of() { child=$(cat "/proc/$1/task/$1/children" 2> /dev/null) && child=${child%% *} && [ -n "$child" ]; }
child_of() { only_child_of "$1" && has_threads "$child"; }
pieces() { ls "$record" 2> /dev/null | grep -c '\.history$'; }
has_pieces() { [ "$(pieces)" -ge "$1" ]; }
said() { grep -oE "(^|[ ,:])$1 [0-9]+" "$build/said" | head -n 1 | grep -oE '[0-9]+$'; } # said WORDS: the number after them
above() { [ "$(said "$2")" -ge "$1" ] 2> /dev/null; timed $? "$what: $2 is not at least $1: $(head -n 5 "$build/said")"; }
exactly() { [ "$(said "$2")" = "$1" ]; timed $? "$what: $2 is not $1: $(head -n 8 "$build/said")"; }
says() { wait_for 5 grep -qE "$1" "$build/said"; timed $? "$what: the scheduler did not say '$1': $(head -n 5 "$build/said")"; } # by its clerk
metric() { awk -v name="caladan_$1" '$1 == name { print $2 }' "$CALADAN_FOLDER/$name/metrics" 2> /dev/null; } # metric NAME{LABELS}
counts() { [ "$(metric "$1")" -ge "$2" ] 2> /dev/null; }
passed_since() { [ "$(metric passes_total)" != "$1" ]; }
renewed() { # the counters are those of a moment after this one: they are written twice, since once may have begun before
    local i
    for i in 1 2; do wait_for 20 passed_since "$(metric passes_total)"; done
}

no_reports() { # in the run, whose processes have ended, no sanitizer has found anything, and no thread another processor than its core's
    local each
    each=$(grep -lE "Sanitizer|runtime error|runs on processor" "$build"/process.* "$build/said" 2> /dev/null | head -n 1)
    [ -z "$each" ]; note $? "$what: $(head -n 40 "${each:-/dev/null}")"
    rm -f "$build"/process.*
    running=()
}
has_ended() { [ "$(jobs -rp | wc -l)" -le "$1" ]; } # has_ended NUMBER: no more processes of the test are left than that
all_end() { # the processes of the test end by themselves
    wait_for 60 has_ended 0; timed $? "$what: $(jobs -rp | wc -l) of its processes do not end"
    kill -TERM $(jobs -rp) 2> /dev/null
    wait
}
is_gone() { ! kill -0 "$1" 2> /dev/null; }
stop() { # the scheduler ends when it is told to, with status 0 or $ends_with, and nothing of it is left; so do the processes that are named
    local judge=note status
    kill -TERM $scheduler
    wait $scheduler
    status=$?
    case $status in 124 | 137) judge=timed ;; esac # timeout has ended it
    [ $status = "${ends_with-0}" ]; $judge $? "$what: the scheduler's status is $status; $(tail -n 5 "$build/said")"
    [ $# = 0 ] || kill -TERM "$@" 2> /dev/null
    all_end
    [ ! -e "$CALADAN_FOLDER/$name" ]; $judge $? "$what: the scheduler's folder is still there"
    rm -rf "${CALADAN_FOLDER:?}/$name"
    no_reports
} 2> /dev/null
are_legal() { # each piece of the record is whole and legal
    local each
    [ "$(pieces)" -ge 1 ]; timed $? "$what: there is no record"
    for each in "$record"/piece*; do
        case $each in
        *.history) is_legal "$table" "$each"; note $? "$what: $(basename "$each") is not legal" ;;
        *) timed 1 "$what: $(basename "$each") was left" ;;
        esac
    done
}
end() { stop "$@"; are_legal; }

# spin_on PROCESSOR NUMBER: so many loops that never end on it, until unspin.
spin_on() {
    local i
    for ((i = 0; i < $2; i++)); do
        taskset -c "$1" sh -c 'while :; do :; done' &
        spinners+=($!)
    done
}
unspin() { kill -9 "${spinners[@]}"; wait "${spinners[@]}"; spinners=(); } 2> /dev/null

counter() { od -A n -v -t u8 "$counter" 2> /dev/null | awk '{ for (i = 1; i <= NF; i++) sum += $i } END { print sum + 0 }'; }
counts_on() { local before=${1:-$(counter)}; [ "$(counter)" -gt "$before" ]; }
works() { # works: a best-effort process of its own gets cores, and does something with them
    local last
    rm -f "$counter"
    go $life "$bin/load" be -n "$name" -u 1 -k 200 -s $life -c "$counter"
    wait_for 20 counts_on 0; timed $? "$what: a successor got no core: $(cat "$build/process.$processes")"
    kill -TERM $last
    wait $last
} 2> /dev/null
# is_served FILE [OF]: more than one of OF requests of a latency-critical load, of which there were some, were served.
is_served() {
    local made unserved of=${2-2}
    made=$(grep -oE '"requests": [0-9]+' "$1" | grep -oE '[0-9]+') unserved=$(grep -oE '"unserved": [0-9]+' "$1" | grep -oE '[0-9]+')
    [ "${made:-0}" -gt 0 ] && [ -n "$unserved" ] && [ $(((made - unserved) * of)) -gt "$made" ]
}
# serves SECONDS [OPTION..]: a latency-critical load of so many seconds, in $build/process.lc, is served. On a slow machine it is
# tried again, twice as long each time.
serves() {
    local seconds=$1 round slow
    shift
    slower
    for ((round = 1; round <= slow; round *= 2)); do
        lc "$@" -s $((seconds * round)) > "$build/process.lc" 2>&1
        is_served "$build/process.lc" && break
        cat "$build/process.lc" >> "$build/process.earlier"
    done
    served "$build/process.lc"
}
served() { is_served "$@"; timed $? "$what: requests were not served: $(head -n 3 "$1")"; }
