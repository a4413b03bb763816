# runs.sh: what host/check, host/soak and host/measure share. To be sourced; `top` is the repository, `build` a folder to build in.

# The processors that we may use: the last two are managed, and one before them is the scheduler's, if there is one.
allowed=()
for range in $(sed -n 's/^Cpus_allowed_list:\t//p' /proc/self/status | tr , ' '); do
    for ((cpu = ${range%-*}; cpu <= ${range#*-}; cpu++)); do allowed+=("$cpu"); done
done
count=${#allowed[@]}
managed=none own=()
[ "$count" -ge 2 ] && managed=${allowed[count - 2]},${allowed[count - 1]}
[ "$count" -ge 3 ] && own=(-o "${allowed[count - 3]}")

# What audits: CALADAN_SIM, else the proved program. Where neither is there, clients/c/audit.c over the proved library: an
# unproved caladan_sim takes minutes for a long record.
if [ -n "${CALADAN_SIM-}" ]; then
    sim=("$CALADAN_SIM" audit)
elif [ -x "$top/crates/caladan_sim/out/caladan_sim" ]; then
    sim=("$top/crates/caladan_sim/out/caladan_sim" audit)
else
    sim=("$build/audit")
fi
needs_audit() { [ "${sim[0]}" = "$build/audit" ]; }

# is_legal TABLE HISTORY: by the policy $policy, where that is set
is_legal() { [ "$({ cat "$1"; echo ---; cat "$2"; } | "${sim[@]}" ${policy:+--policy "$policy"} 2> /dev/null | tail -n 1)" = legal ]; }

# The schedulers of a run have their folders in one of the run's own, in memory, and so has a load its counter: a disk would
# hold up whoever counts there.
in_memory=
for each in "${XDG_RUNTIME_DIR-}" /dev/shm; do
    [ -z "$in_memory" ] && [ -w "$each" ] && [ "$(stat -f -c %T "$each")" = tmpfs ] && in_memory=$(mktemp -d "$each/caladan.XXXXXX")
done
export CALADAN_FOLDER=${in_memory:-$build}/run
[ -d "$CALADAN_FOLDER" ] || mkdir -m 700 "$CALADAN_FOLDER"
counter=$CALADAN_FOLDER/counter
export CALADAN_CLAIMS=$CALADAN_FOLDER/claims # where loads claim the processors that they run on, each for itself
# where: what the folder lies on, in words
where() { [ -n "$in_memory" ] && echo "sockets and counters are in memory, below ${in_memory%/*}" || echo "sockets and counters are on a disk, which may hold loads up: there is no /dev/shm to write to"; }
leave_memory() { [ -z "$in_memory" ] || rm -rf "$in_memory"; }

# is_there NAME: a scheduler of that name listens, or was killed.
is_there() { [ -S "$CALADAN_FOLDER/$1/task-0" ]; }

# slower: sets `slow`, how many times longer a wait may be than on a quiet machine, 10 at most: by how many want each
# processor.
processors=$(getconf _NPROCESSORS_ONLN)
slower() {
    local load
    read -r load _ < /proc/loadavg
    slow=$((1 + ${load%.*} / processors))
    [ "$slow" -le "${slowest-10}" ] || slow=${slowest-10}
}

# wait_for SECONDS COMMAND..: until it succeeds, or so long on a quiet machine; wait_at_most: or so long on any.
wait_for() {
    local from=$SECONDS most=$1 slow
    shift
    until "$@"; do
        slower
        [ $((SECONDS - from)) -le $((most * slow)) ] || return 1
        sleep 0.02
    done
}
wait_at_most() {
    local slowest=1
    wait_for "$@"
}

# has_threads PID: it has attached, and has its kernel threads.
has_threads() { [ "$(ls "/proc/$1/task" 2> /dev/null | wc -l)" -ge 3 ]; }

# alone: waits until no other check or soak of this machine has the processors, and has them then until it ends.
alone() {
    command -v flock > /dev/null || return 0
    { exec 9< /sys/devices/system/cpu; } 2> /dev/null || return 0
    flock -w 900 9
}
