# refused.sh: bad input of every kind: one line, status 2, and nothing left.

words() {
    name=test$$
    printf 'cores = 3\nbandwidth_limit = 1\n' > "$build/odd.toml"
    refuses "odd.toml: the table lacks a key" $(daemon 0,1 "$build/odd.toml")
    refuses "none.toml: No such file" $(daemon 0,1 "$build/none.toml")
    refuses "it names 1 processors, and the table has 2 cores" $(daemon 0)
    refuses "it names 3 processors, and the table has 2 cores" $(daemon 0-2)
    refuses "processor 1023: it is not there" $(daemon "${allowed[0]},1023")
    refuses "it is named twice" $(daemon "${allowed[0]},${allowed[0]}")
    refuses "a record needs -k" $(daemon 0,1) -r "$build"
    refuses "it is no number in range" $(daemon 0,1) -k 3000
    refuses "it is no number in range" $(daemon 0,1) -k 19
    refuses "it is no number in range" $(daemon 0,,1)
    refuses "it is no number in range" $(daemon 1-0)
    refuses "it is no option" $(daemon 0,1) word
    refuses "--policy: the policies are caladan and assured" $(daemon "$managed") --policy fifo
    refuses "--policy: the policies are caladan and assured" $(daemon "$managed") --policy ""
    refuses "--policy: the policies are caladan and assured" $(daemon "$managed") --policy=Assured
    refuses "option '--policy' requires an argument" $(daemon "$managed") --policy
    refuses "task 0: it is not best-effort, and only such a task can stand under" $(daemon "$managed") -u 0
    refuses "task 0: it is not best-effort" $(daemon "$managed") -u 1,0
    refuses "task 2: the table has no such task" $(daemon "$managed") -u 1,2
    refuses "it is no number in range" $(daemon "$managed") -u 16
    refuses "it is no number in range" $(daemon "$managed") -u 1,
    refuses "-m: the processor is not there" $(daemon "$managed") -m 1023
    refuses "it is that of -m" $(daemon "$managed") -m "${managed#*,}"
    [ "$count" -lt 3 ] || refuses "-m: it is the scheduler's own processor" $(daemon "$managed") "${own[@]}" -m "${own[1]}"
    refuses "unrecognized option" $(daemon 0,1) --nothing
    refuses "a name has 1 to 64 letters" "$bin/caladand" -n "" -t "$table" -c 0,1
    refuses "a name has 1 to 64 letters" $(name=a/b daemon 0,1)
    refuses "a name has 1 to 64 letters" $(name=.a daemon 0,1)
    refuses "there is no scheduler of that name" "$bin/load" lc -n "$name" -u 0
    refuses "there is no scheduler of that name" "$bin/load" lc -n ../run -u 0
    refuses "the process has a handler of SIGURG already" "$bin/load" lc -n "$name" -u 0 -g
    [ "$("$bin/caladand" --version)" = "caladand $(cat "$top/VERSION")" ]; note $? "caladand --version"
    "$bin/caladand" --help | grep -q '^usage: caladand -n NAME'; note $? "caladand --help"
}

made_record() { # made_record NAME LINE EXAMPLE: the folder of a record whose table has this line first
    local given=$top/examples/audit/$3/input
    mkdir -p "$build/rules/$1"
    { [ -z "$2" ] || echo "$2"; sed '/^---$/,$d' "$given"; } > "$build/rules/$1/table.toml"
    sed '1,/^---$/d' "$given" > "$build/rules/$1/piece-000001.history"
}
says_of() { # says_of STATUS WORDS RECORD..: what audit_record prints, in a line, and its status
    local found
    found=$(cd "$build/rules" && "$top/host/audit_record" "${@:3}" 2>&1; echo "status $?")
    [ "$found" = "$2
status $1" ]; note $? "'$2', status $1, of audit_record ${*:3} ($found)"
}
rules() { # a record is audited by the rule that it names; one of another rule is refused by its name, and none is illegal for it
    local line="# Audit it with --policy assured" before=assured_rule_of_before now=assured_by_its_policy
    local -x CALADAN_SIM=${sim[0]}
    rm -rf "$build/rules"
    if needs_audit; then
        CALADAN_SIM=$build/audits
        printf '#!/bin/sh\nshift\nexec "%s" "$@"\n' "${sim[0]}" > "$build/audits" && chmod +x "$build/audits"
    fi
    made_record new "$line, rule 2." $now
    made_record old "$line." $before
    made_record first "$line, rule 1." $before
    made_record later "$line, rule 3." $now
    made_record other "# Audit it with --policy bold, rule 2." $now
    made_record plain "" caladan_by_assured
    made_record named "$line, rule 2." $before
    mkdir "$build/rules/empty" "$build/rules/none" && cp "$build/rules/new/table.toml" "$build/rules/none"
    says_of 0 "new/piece-000001.history: legal" new
    says_of 0 "plain/piece-000001.history: legal" plain
    says_of 1 "named/piece-000001.history: illegal pass 1" named
    says_of 2 "audit_record: old: made by assured, rule 1, and this is assured, rule 2: version 5 audits it" old
    says_of 2 "audit_record: first: made by assured, rule 1, and this is assured, rule 2: version 5 audits it" first
    says_of 2 "audit_record: later: made by assured, rule 3, and this is assured, rule 2: the version that made it audits it" later
    says_of 2 "audit_record: other: made by bold, rule 2, and this is assured, rule 2: the version that made it audits it" other
    says_of 2 "audit_record: empty: it has no table.toml" empty
    says_of 2 "audit_record: none: it has no whole piece" none
    says_of 2 "audit_record: later: made by assured, rule 3, and this is assured, rule 2: the version that made it audits it
new/piece-000001.history: legal
named/piece-000001.history: illegal pass 1" later new named
}

folders() { # the folder of sockets is the user's, and nobody else's
    local base=$CALADAN_FOLDER
    name=folder$$
    export CALADAN_FOLDER
    rm -rf "$build/open" "$build/closed" "$build/link"
    mkdir "$build/open" "$build/closed" && chmod 755 "$build/open" && chmod 700 "$build/closed" && ln -s closed "$build/link"
    for CALADAN_FOLDER in "$build/open" "$build/link"; do
        refuses "$CALADAN_FOLDER: " $(daemon "$managed")
        refuses "load: task 0: " "$bin/load" lc -n "$name" -u 0
    done
    CALADAN_FOLDER=$build/closed
    mkdir "$build/closed/$name" && chmod 711 "$build/closed/$name"
    refuses "$name: the folder is another user's, or others may enter it" $(daemon "$managed")
    refuses "or its folder, is another user's" "$bin/load" lc -n "$name" -u 0
    CALADAN_FOLDER=$build/none
    refuses "there is no scheduler of that name" "$bin/load" lc -n "$name" -u 0
    CALADAN_FOLDER=$base
}

impostors() { # who poses as the scheduler can hand out what he likes: nothing of it is mapped
    local how words
    for how in unsealed short version threads; do
        case $how in version | threads) words="of another version" ;; *) words="is no sealed segment" ;; esac
        name=impostor$$-$how
        go 10 "$bin/impostor" "$name" $how
        wait_for 10 is_there "$name"; timed $? "the impostor ($how) did not come: $(cat "$build"/process.*)"
        refuses "$words" "$bin/load" lc -n "$name" -u 0
        wait $last
        rmdir "$CALADAN_FOLDER/$name" 2> /dev/null
    done
    what="an impostor"
    no_reports
}

refusals() { # who may not attach: the task's process lives, for this scheduler kills nobody
    what="refusals on $main"
    start -g 100000
    go $life "$bin/load" lc -n "$name" -u 0 -k 200 -q 2000 -s $life
    wait_for 20 child_of $last; timed $? "$what: the task's process did not attach: $(head -n 5 "$build/said")"
    refuses "task 0: the task is taken" "$bin/load" lc -n "$name" -u 0
    refuses "task 0: the scheduler's segment is of another version" "$bin/load_other" lc -n "$name" -u 0
    refuses "there is no scheduler of that name, or its table has no such task" "$bin/load" lc -n "$name" -u 2
    refuses "another scheduler manages it" "$bin/caladand" -n "$name" -t "$table" -c "$managed"
    [ "$count" -lt 4 ] || refuses "another scheduler has this name" "$bin/caladand" -n "$name" -t "$table" -c "${allowed[0]},${allowed[1]}"
    stop $last
}

# ---- other users and namespaces, where the machine lets the tests be some ----

can_be_others() { [ "$(id -u)" = 0 ] && setpriv --reuid 65534 --regid 65534 --clear-groups true 2> /dev/null; }
as_other() { setpriv --reuid 65534 --regid 65534 --clear-groups "$@"; }

other_users() {
    local base=$CALADAN_FOLDER elsewhere other
    what="another user"
    can_be_others || { skip "other users, for want of root"; return; }
    elsewhere=$(mktemp -d) && mkdir -m 700 "$elsewhere/base" && cp "$build/plain/load" "$build/plain/caladand" "$build/plain/impostor" "$table" "$elsewhere" && chmod 755 "$elsewhere" "$elsewhere"/* && chmod 700 "$elsewhere/base"
    chown 65534 "$elsewhere/base"
    # another user's scheduler: nothing of root's goes there
    export CALADAN_FOLDER=$elsewhere/base
    setpriv --reuid 65534 --regid 65534 --clear-groups timeout $life "$elsewhere/caladand" -n theirs -t "$elsewhere/mix.toml" -c "$managed" > "$build/said" 2>&1 &
    other=$!
    wait_for 20 is_there theirs; timed $? "$what: their scheduler did not start: $(cat "$build/said")"
    refuses "is another user's" "$bin/load" lc -n theirs -u 0
    # theirs works, without a capability
    as_other env -u CALADAN_CLAIMS timeout $life "$elsewhere/load" be -n theirs -u 1 -k 200 -s 1 -c "$elsewhere/base/counter" 2> "$build/err"
    [ -n "$(tr -d '\0' < "$elsewhere/base/counter" | head -c 1)" ]; timed $? "$what: their own process got no core: $(cat "$build/err")"
    # who is theirs by half cannot be interrupted by them
    refuses "the scheduler may not interrupt this process" "$build/plain/misbehave" theirs 0 1 mixed
    kill -TERM $other
    wait $other; note $? "$what: their scheduler's status: $(tail -n 3 "$build/said")"
    # nor does it go to who poses as one, in their folder or by a socket of theirs in root's
    setpriv --reuid 65534 --regid 65534 --clear-groups timeout 20 "$elsewhere/impostor" posed unsealed 2> "$build/err" &
    other=$!
    wait_for 20 is_there posed; timed $? "$what: the impostor did not come: $(cat "$build/err")"
    refuses "is another user's" "$bin/load" lc -n posed -u 0
    mkdir -m 700 "$base/posed" && ln -s "$elsewhere/base/posed/task-0" "$base/posed/"
    CALADAN_FOLDER=$base refuses "is another user's" "$bin/load" lc -n posed -u 0
    wait $other
    rm -rf "$base/posed"
    # root's scheduler: they find no way in
    CALADAN_FOLDER=$base
    start -g 100000
    refuses "Permission denied" env -u CALADAN_CLAIMS setpriv --reuid 65534 --regid 65534 --clear-groups "$elsewhere/load" lc -n "$name" -u 0
    stop
    # without a folder there is none
    refuses "there is neither CALADAN_FOLDER nor XDG_RUNTIME_DIR" setpriv --reuid 65534 --regid 65534 --clear-groups env -u CALADAN_FOLDER -u XDG_RUNTIME_DIR "$elsewhere/caladand" -n theirs -t "$elsewhere/mix.toml" -c "$managed"
    rm -rf "$elsewhere"
}

older_kernel() { # the process at the other end is known by its number, and says once more that it is there
    what="a kernel that does not hand out the file of a peer"
    can_deny peer || return
    wrap=("$bin/deny" peer)
    start -g 100000
    wrap=()
    works
    stop
    above 1 attached
}

other_namespace() {
    what="another pid namespace"
    unshare -p -f true 2> /dev/null || { skip "another pid namespace, for want of rights"; return; }
    start -g 100000
    refuses "this process is in another pid namespace" unshare -p -f "$bin/load" lc -n "$name" -u 0
    works
    stop
}
