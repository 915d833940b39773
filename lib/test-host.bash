# shellcheck shell=bash disable=SC2154
# The host: signals and files in memory: a part of bin/test-builds, whose host, work and functions it uses.

# Whether a process runs that has this word in its command line.
at_work() { pgrep -f -- "$1" >/dev/null; }
none_at_work() { [ -z "$(pgrep -f -- "$1")" ]; }

# Starts a command, sends it a signal once the compiler of that source is at work, and prints the status with which it ended.
stopped_by() {
    local signal=$1 source=$2 pid tries
    shift 2
    env --default-signal "$@" >out.txt 2>err.txt &
    pid=$!
    for tries in $(seq 200); do
        [ "$tries" = 1 ] || sleep 0.05
        at_work "^[^ ]*(cc1|clang)[^ ]* .*$source" && break
    done
    sleep 0.2
    kill -s "$signal" "$pid"
    wait "$pid" 2>/dev/null
}

# A signal that stops the host stops the compiler, and the host ends as that does. Nothing of the call is kept, and no object is left half written.
host_signals() {
    local cc=$1 signal alone status name
    for signal in TERM INT HUP ${2:-}; do
        # GCC's driver leaves its compiler at work where it is stopped itself, so each call has a source of its own.
        for name in alone ours; do
            # It takes long to compile, and is quick to preprocess.
            {
                echo 'int f(int x) {'
                seq -f 'x += x * %g; if (x %% 7) x ^= x << 3;' 20000
                echo 'return x; }'
            } >"$name-$signal.c"
        done
        stopped_by "$signal" "alone-$signal.c" "$cc" -O1 -c "alone-$signal.c" -o slow.o
        alone=$?
        rm -f slow.o
        stopped_by "$signal" "ours-$signal.c" "$host" "$cc" -O1 -c "ours-$signal.c" -o slow.o
        status=$?
        is "$cc $signal: status $status, as $alone" [ "$status" = "$alone" ]
        is "$cc $signal: no object" [ ! -e slow.o ]
        is "$cc $signal: no driver goes on" none_at_work "^$cc .*ours-$signal.c"
    done
    echo 'int it;' >slow.c
    mark
    "$host" "$cc" -O1 -c slow.c -o slow.o
    is "$cc: compiled after a stop" since 0 1
}

# What a caller ignores stays ignored.
host_ignores() {
    local cc=$1
    seq 3000 | awk '{ print "int g" $1 "(int x) { return x * " $1 "; }" }' >calm.c
    (
        trap '' HUP
        "$host" "$cc" -O1 -c calm.c -o calm.o &
        sleep 0.3
        kill -s HUP $!
        wait $!
    )
    is "$cc: an ignored signal" [ $? = 0 ]
    $cc -O1 -c calm.c -o plain.o
    is "$cc: an ignored signal: object" cmp -s plain.o calm.o
}

host_calls() {
    local cc=$1 dir=$work/host-${sanitized:-}$1
    mkdir -p "$dir"
    cd "$dir" || return
    # Clang takes a SIGQUIT for a crash of its own, or doesn't, depending on how far it is.
    if [ "$cc" = gcc ]; then host_signals "$cc" QUIT; else host_signals "$cc"; fi
    host_ignores "$cc"
    host_hands_on "$cc"
    host_itself "$cc"
    host_fails "$cc"
    host_deaths "$cc"
    host_is_light "$cc"
    host_shows_early "$cc"
    host_streams "$cc"
    host_colours "$cc"
    # There is nothing in the cache directory but what is kept.
    is "$cc: no folder of a process" [ ! -e "$GULMAAT_DIR/own" ]
    cd "$work" || return
}

# The same by a host with sanitizers, which write what they find into files.
host_sanitized() {
    local host=$work/gulmaat-sanitized sanitized=sanitized- found
    local -x GULMAAT_BIN=$built/gulmaat ASAN_OPTIONS=log_path=$work/sanitizer:detect_leaks=1 UBSAN_OPTIONS=log_path=$work/sanitizer
    is "a host with sanitizers" gcc -g -O1 -fsanitize=address,undefined -fno-sanitize-recover=all "$top"/host/*.c -o "$host"
    host_calls gcc
    host_calls clang
    found=$(cat "$work"/sanitizer.* 2>/dev/null | head -n 30)
    is "no sanitizer found anything: $found" [ -z "$found" ]
}
