# crowd.sh: all ill-doers at once, beside an honest latency-critical and an honest best-effort process. Nothing is promised
# of time, least of all where processes crowd on two processors, so the honest ones have room, and are asked to go on. Two of
# the ill-doers' tasks stand under.

crowd() { # crowd SECONDS
    local seconds=$1 loops=() honest
    what="$1 seconds of ill-doers beside honest processes"
    table=$top/host/tables/crowd.toml
    rm -f "$counter" "$build/enough"
    begin -k 2000 -g 500000 -p 10000 -u 3,5
    go $((seconds + 60)) "$bin/load" be -n "$name" -u 1 -k 200 -s $((seconds - 2)) -c "$counter"
    honest=$last
    ill 2 noise half last_one visits & loops+=($!)
    ill 3 deaf last punches noise & loops+=($!)
    ill 4 foreign closes wordy deaf & loops+=($!)
    ill 5 visits noise half foreign wordy & loops+=($!)
    lc -q 500 -s $((seconds - 3)) > "$build/process.lc" 2>&1; timed $? "$what: the latency-critical one: $(cat "$build/process.lc")"
    wait $honest; timed $? "$what: the best-effort one ended with another status: $(grep 'of task [01]' "$build/said")"
    touch "$build/enough"
    wait "${loops[@]}"
    served "$build/process.lc" 10
    [ "$(counter)" -gt 0 ]; timed $? "$what: the best-effort one did nothing"
    end
    ! grep -qE "of task [01] (is|cannot)" "$build/said"; timed $? "$what: $(grep -E 'of task [01] ' "$build/said")"
    above 1 killed
    table=$top/host/tables/mix.toml
}
ill() { # ill TASK HOW..: one after the other, until it is enough: those that keep a core for five seconds, others for one
    local task=$1 how
    shift
    while [ ! -e "$build/enough" ]; do
        for how; do
            [ -e "$build/enough" ] && break
            case $how in deaf | half | wordy) timeout -s KILL 6 "$bin/misbehave" "$name" "$task" 5 "$how" ;; *) timeout -s KILL 2 "$bin/misbehave" "$name" "$task" 1 "$how" ;; esac
        done
    done > "$build/process.ill$task" 2>&1
}
