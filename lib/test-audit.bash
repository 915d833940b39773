# shellcheck shell=bash disable=SC2086,SC2154
# Hits that are compiled too: a part of bin/test-builds, whose host, work and functions it uses.

# How many hits differed so far from what the compiler makes.
differing() { "$host" --print-stats | awk -F '\t' '$1 == "error_audit" { n = $2 } END { print n + 0 }'; }

# A compiler that isn't to be trusted: it appends what is in a file to each object.
audit_compiler() {
    printf '%s "$@"\nstatus=$?\ncase " $* " in *" -E "*) ;; *" -c "*) cat %s/noise >>it.o ;; esac\nexit $status\n' \
        "$(command -v "$1")" "$PWD" | stand_in "fake/$1"
}

audit() {
    local cc=$1 dir=$work/audit-$1 errors
    mkdir -p "$dir/fake"
    cd "$dir" || return
    "$host" --zero-stats
    printf 'int f(void) { int x; return 0; }\n' >it.c
    settle
    GULMAAT_AUDIT=tell "$host" $cc -Wall -MD -c it.c -o it.o 2>err
    is "$cc: no hit" grep -qx 'gulmaat: no hit, so nothing was compared' err
    mark
    rm it.o it.d
    GULMAAT_AUDIT=tell "$host" $cc -Wall -MD -c it.c -o it.o 2>err
    is "$cc: a hit that is compared" grep -q 'gulmaat: a hit: outputs, dependency file and messages are those of the compiler' err
    is "$cc: it counts as a hit" since 0 0 1
    $cc -Wall -MD -c it.c -o plain.o 2>plain.err
    is "$cc: its object" cmp -s it.o plain.o
    is "$cc: its messages" cmp -s <(grep -v '^gulmaat: ' err) plain.err
    is "$cc: nothing differs" [ "$(differing)" = 0 ]
    # Where the compiler makes another object, that is the answer, and the result is removed.
    printf 'one' >noise
    audit_compiler "$cc"
    GULMAAT_AUDIT=0 "$host" "fake/$cc" -c it.c -o it.o
    printf 'two' >noise
    GULMAAT_AUDIT=0 "$host" "fake/$cc" -c it.c -o it.o
    is "$cc: a hit that isn't compared" [ "$(tail -c 3 it.o)" = one ]
    errors=$(differing)
    GULMAAT_AUDIT=1 "$host" "fake/$cc" -c it.c -o it.o
    is "$cc: the compiler's own object" [ "$(tail -c 3 it.o)" = two ]
    is "$cc: it is counted" [ "$(differing)" = $((errors + 1)) ]
    is "$cc: it is logged" grep -q " object at byte [0-9]*: fake/$cc -c it.c -o it.o\$" "$GULMAAT_DIR/audit.log"
    mark
    "$host" "fake/$cc" -c it.c -o it.o
    is "$cc: what was kept is gone" since 0 1
    rm -f it.o
    "$host" --audit $cc -c it.c -o it.o 2>err
    is "$cc: one command is compared" grep -q 'gulmaat: \(a hit: \|no hit\)' err
    is "$cc: its object is there" [ -s it.o ]
    # No hit is compared, and a wrong value is refused.
    GULMAAT_AUDIT=0 "$host" $cc -c it.c -o it.o 2>err
    is "$cc: none is compared" [ ! -s err ]
    GULMAAT_AUDIT=some "$host" $cc -c it.c -o it.o 2>err
    is "$cc: no such number" grep -q 'audit is some: set it to a whole number, or tell' err
    rm -f "$GULMAAT_DIR/audit.log"
    "$host" --zero-stats
    cd "$work" || return
}
