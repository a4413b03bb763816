# records.sh: what is written, and what keeps it from being written.

kept_apart() { # a link that was laid before, and the record of an earlier run, are left as they are
    what="a folder with a link and an earlier run"
    begin -k 1000 -g 100000 -s 1
    wait $scheduler; note $? "$what: the first run: $(cat "$build/said")"
    echo precious > "$build/precious"
    for each in piece-000001.part piece-000001.history "$name-2"; do ln -s "$build/precious" "$build/record/$each"; done
    cp "$record/piece-000001.history" "$build/first"
    start_as "$name" -r "$build/record" -k 1000 -g 100000 -s 1
    wait $scheduler; note $? "$what: the second run: $(cat "$build/said")"
    [ "$(cat "$build/precious")" = precious ]; note $? "$what: the file behind the link was written"
    cmp -s "$record/piece-000001.history" "$build/first"; note $? "$what: the earlier run was written"
    [ -f "$build/record/$name-3/piece-000001.history" ]; note $? "$what: the second run is not recorded"
    cmp -s "$table" "$record/table.toml"; note $? "$what: its table is not the run's"
    are_legal
}

full_disk() { # it ends the record, and not the run, whose status says so
    local ends_with=3
    what="a record that cannot be written any more"
    rm -rf "$build/record"
    mkdir "$build/record"
    start_limited -r "$build/record" -k 1000 -g 20000
    go $life "$bin/load" be -n "$name" -u 1 -k 200 -s $life
    wait_for 20 grep -q "nothing is recorded any more" "$build/said"; timed $? "$what: nothing is said: $(cat "$build/said")"
    serves 1
    stop $last
    above 1 revoke
}
start_limited() {
    name=check$$-limited
    (ulimit -f 300; exec timeout -k 100 $life "$bin/caladand" -n "$name" -t "$table" -c "$managed" "${own[@]}" "$@") > "$build/said" 2>&1 &
    scheduler=$!
    running+=($scheduler)
    wait_for 20 has_begun
}

on_disk() { # a file is called whole only when it is on the disk with all that it has
    local bin=$build/plain # whose memory is not looked through at the end, which needs what strace has
    what="the disk of a whole piece"
    command -v strace > /dev/null || { skip "$what, for want of strace"; return; }
    wrap=(strace -f -qq -y -o "$build/calls" -e trace=fsync,rename,renameat,renameat2)
    begin -k 1000 -g 100000 -e -p 1000
    wrap=()
    wait_for 60 has_pieces 2; timed $? "$what: there are no two pieces: $(cat "$build/said")"
    only_child_of $scheduler && only_child_of "$child" && kill -TERM "$child"
    wait $scheduler; timed $? "$what: its status: $(tail -n 3 "$build/said")"
    [ -s "$build/calls" ] || { skip "$what, for want of rights"; return; }
    # of each piece: its file, its name, its folder
    awk '/fsync.*piece-[0-9]+\.part>/ { file = 1; next }
        /rename.*piece-/ { if (!file) bad = 1; file = 0; named = 1; next }
        /fsync/ && named { named = 0; folders++ }
        END { exit bad || named || folders < 2 }' "$build/calls"; note $? "$what: $(grep piece "$build/calls" | head -n 9)"
    no_reports
} 2> /dev/null

removed_folder() { # nobody finds the scheduler any more: it says so
    what="a scheduler whose folder is removed"
    start -g 100000
    wait_for 20 counts passes_total 1; timed $? "$what: it does not count"
    mv "$CALADAN_FOLDER/$name" "$CALADAN_FOLDER/elsewhere"
    says "its folder, or a socket there, was removed: nobody can attach any more"
    mv "$CALADAN_FOLDER/elsewhere" "$CALADAN_FOLDER/$name"
    works
    stop
    what="a scheduler whose socket is removed"
    start -g 100000
    wait_for 20 counts passes_total 1; timed $? "$what: it does not count"
    rm "$CALADAN_FOLDER/$name/task-1"
    says "its folder, or a socket there, was removed: nobody can attach any more"
    stop
}

unread_summary() { # who does not read the summary keeps neither processors nor a name
    local daemon
    what="a scheduler whose summary nobody reads"
    name=check$$-summary
    rm -f "$build/unread"
    mkfifo "$build/unread"
    exec 8<> "$build/unread"
    dd if=/dev/zero of="$build/unread" bs=4096 oflag=nonblock 2> /dev/null
    timeout -k 100 $life "$bin/caladand" -n "$name" -t "$table" -c "$managed" "${own[@]}" -g 100000 >&8 2> "$build/said" &
    scheduler=$!
    running+=($scheduler)
    wait_for 20 has_begun
    only_child_of $scheduler && daemon=$child
    kill -TERM "$daemon"
    wait_for 10 is_not_there; timed $? "$what: its folder is still there"
    kill -0 "$daemon" 2> /dev/null; timed $? "$what: it has ended, and nothing was shown"
    start_as "$name" -g 100000
    works
    kill -9 "$daemon"
    stop
    exec 8<&-
    rm "$build/unread"
} 2> /dev/null
is_not_there() { [ ! -e "$CALADAN_FOLDER/$name" ]; }

set_back() { # the wall clock goes back by an hour, and the record is written on
    local bin=$build/plain # what is preloaded must not come before a sanitizer
    what="a record while the wall clock is set back"
    wrap=(env LD_PRELOAD="$bin/later.so")
    begin -k 1000 -g 100000 -e
    wrap=()
    wait_for 5 has_passes 5000; timed $? "$what: it has $(grep -c '^pass,' "$record/piece-000001.part") passes"
    end
}
has_passes() { [ "$(grep -cs '^pass,' "$record/piece-000001.part")" -ge "$1" ] 2> /dev/null; } # in its file, of the first piece

idle_passes() { # they are left out, and counted; what is left is a legal history; with -e they are written too
    local written left
    what="a record without idle passes"
    begin -k 1000 -g 20000
    wait_for 20 counts passes_total 5000; timed $? "$what: it has $(metric passes_total) passes"
    counts passes_left_out_total 4000; note $? "$what: of $(metric passes_total) without anybody $(metric passes_left_out_total) are left out"
    go $life "$bin/load" be -n "$name" -u 1 -k 200 -s $life
    serves 1
    end $last
    above 1 grant
    written=$(cat "$record"/*.history | grep -c '^pass,') left=$(said "left out of the record")
    [ $((written + ${left:-0})) = "$(said passes)" ] && [ "${left:-0}" -gt 4000 ]; note $? "$what: $written are written: $(head -n 1 "$build/said")"
    what="a record with idle passes too"
    begin -k 1000 -g 100000 -e -s 1
    wait $scheduler; note $? "$what: $(cat "$build/said")"
    are_legal
    exactly 0 "left out of the record"
    written=$(cat "$record"/*.history | grep -c '^pass,')
    [ "$written" = "$(said passes)" ]; note $? "$what: $written are written: $(head -n 1 "$build/said")"
    no_reports
}

killed_midway() { # what was recorded up to the last second is there
    local part passes
    what="the record of a scheduler that is killed"
    begin -k 1000 -g 100000
    only_child_of $scheduler
    go $life "$bin/load" be -n "$name" -u 1 -k 200 -s $life
    lc -s 2 > "$build/process.lc" 2>&1
    kill -9 "$child"
    wait $scheduler 2> /dev/null
    part=$record/piece-000001.part
    passes=$(grep -c '^pass,' "$part")
    [ "$passes" -gt 100 ]; timed $? "$what: it has $passes passes"
    # all but the last pass, which may be cut, are a legal history
    awk '/^pass,/ { printf "%s", held; held = ""; seen++ } { held = held $0 "\n" } END { print "end," seen - 1 }' \
        "$part" > "$build/cut"
    is_legal "$table" "$build/cut"; note $? "$what: it is not legal"
    kill -TERM $last 2> /dev/null
    wait
    rm -rf "${CALADAN_FOLDER:?}/$name"
    no_reports
}

long_numbers() { # no piece is longer than what reads it
    local each size judge=note bin=$build/plain
    what="pieces of 128 threads whose records have the longest numbers"
    { printf 'cores = 2\nbandwidth_limit = 1000000000000\n'
      for ((each = 0; each < 8; each++)); do printf '[[task]]\nkind = "be"\nguaranteed = 0\nlimit = 16\ndelay = 0\nrequest = 0\n'; done; } > "$build/wide.toml"
    table=$build/wide.toml
    begin -k 2000 -g 20000
    for ((each = 0; each < 8; each++)); do go $life "$bin/misbehave" "$name" $each $life wordy; done
    wait_for 60 has_pieces 1; timed $? "$what: no piece ended: $(cat "$build/said")"
    stop
    has_pieces 1 || judge=timed # what is not there is not judged otherwise
    for each in "$record"/*.history; do
        size=$(($(stat -c %s "$each") + $(stat -c %s "$table") + 4))
        [ $size -le 67108864 ]; $judge $? "$what: $(basename "$each") has $size bytes with its table"
    done
    is_legal "$table" "$record/piece-000001.history"; $judge $? "$what: the first is not legal"
    [ "$(stat -c %s "$record/piece-000001.history")" -gt 50000000 ]; $judge $? "$what: the first is short, and nothing was shown"
    rm -rf "$record"
    table=$top/host/tables/mix.toml
} 2> /dev/null

installed() { # what is installed stands by itself
    what="make -C host install"
    make -s -C "$top/host" OUT="$build/plain" CFLAGS="-O2 -g" PREFIX="$build/prefix" install > "$build/make.log" 2>&1; note $? "$what: $(tail -n 3 "$build/make.log")"
    "$build/prefix/bin/caladand" --version > /dev/null; note $? "$what: caladand"
    [ -s "$build/prefix/share/man/man8/caladand.8" ]; note $? "$what: the manual page"
    ${CC:-cc} -pthread -I"$build/prefix/include" "$top/host/load.c" -L"$build/prefix/lib" -lcaladan_rt -lm -o "$build/prefix/load" 2> "$build/make.log"; note $? "$what: $(cat "$build/make.log")"
    refuses "there is no scheduler of that name" "$build/prefix/load" lc -n installed -u 0
    command -v c++ > /dev/null || { skip "$what, from C++, for want of c++"; return; }
    printf '#include <caladan_rt.h>\nint main() { return caladan_rt_why(1) == nullptr; }\n' > "$build/in_cpp.cpp"
    c++ -Wall -Wextra -Wconversion -pedantic -Werror -pthread -I"$build/prefix/include" "$build/in_cpp.cpp" -L"$build/prefix/lib" -lcaladan_rt -o "$build/in_cpp" 2> "$build/make.log" && "$build/in_cpp"; note $? "$what, from C++: $(cat "$build/make.log")"
}

other_compiler() { # which refuses what is gcc's alone
    what="a compiler that does not know -Wno-tsan"
    printf '#!/bin/sh\ncase " $* " in *" -Wno-tsan "*) echo "unknown word" >&2; exit 1 ;; esac\nexec %s "$@"\n' "${CC:-cc}" > "$build/other_cc"
    chmod +x "$build/other_cc"
    make -s -C "$top/host" CC="$build/other_cc" OUT="$build/other" CFLAGS=-O0 "$build/other/folder.o" > "$build/make.log" 2>&1; note $? "$what: $(tail -n 3 "$build/make.log")"
}

announced() { # whoever started it is told when processes can attach
    what="a scheduler that tells when it is ready"
    command -v python3 > /dev/null || { skip "$what, for want of python3"; return; }
    rm -f "$build/notify" "$build/ready"
    python3 -c 'import socket, sys
it = socket.socket(socket.AF_UNIX, socket.SOCK_DGRAM)
it.bind(sys.argv[1])
it.settimeout(300)
print(it.recv(64).decode())' "$build/notify" > "$build/ready" 2>&1 &
    wait_for 20 test -S "$build/notify"
    NOTIFY_SOCKET=$build/notify start -g 100000
    wait_for 20 grep -qx READY=1 "$build/ready"; timed $? "$what: $(cat "$build/ready")"
    stop
}

readable() { # counters while it runs
    what="what can be read of a scheduler"
    begin -k 1000 -g 100000
    wait_for 20 counts passes_total 1; timed $? "$what: no passes in $(cat "$CALADAN_FOLDER/$name/metrics")"
    [ "$(metric recording)" = 1 ]; note $? "$what: it records"
    go $life "$bin/load" be -n "$name" -u 1 -k 200 -s $life
    wait_for 20 counts 'attached{task="1"}' 1; timed $? "$what: who is attached"
    # each line is a comment, or a name, labels and a number
    ! grep -qvE '^(# TYPE caladan_[a-z_]+ (counter|gauge|summary)|caladan_[a-z_]+(\{[a-z]+="[^"]*"(,[a-z]+="[^"]*")*\})? [0-9]+)$' "$CALADAN_FOLDER/$name/metrics"
    note $? "$what: not Prometheus's lines"
    end $last
}
