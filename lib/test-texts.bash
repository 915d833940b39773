# shellcheck shell=bash disable=SC2086,SC2154
# Texts that aren't kept: a part of bin/test-builds, whose host, work and functions it uses.

# A source gives the compiler's own object twice, and of the two calls so many are hits and compiles.
text_case() {
    local cc=$1 name=$2 source=$3 hits=$4 misses=$5
    printf '%s\n' "$source" >it.c
    $cc -c it.c -o plain.o
    mark
    "$host" "$cc" -c it.c -o it.o
    is "$cc: $name: object" cmp -s plain.o it.o
    "$host" "$cc" -c it.c -o it.o
    is "$cc: $name: object again" cmp -s plain.o it.o
    is "$cc: $name: calls" since "$hits" "$misses"
}

# A precompiled header in a folder that the compiler searches before the one with the header itself.
precompiled_ahead() {
    local cc=$1 words
    printf '#include <first.h>\nint a = ONE;\n' >it.c
    mkdir -p ahead
    printf '#define ONE 9\n' >ahead/first.h
    (cd ahead && "$cc" -x c-header first.h -o first.h.gch && rm first.h)
    for words in "-Iahead -I." "-I ahead -I." "-iquote ahead -I." "-isystem ahead -isystem ." "-include first.h -Iahead -I."; do
        $cc $words -c it.c -o plain.o
        mark
        "$host" "$cc" $words -c it.c -o it.o
        is "$cc $words: a precompiled header ahead: object" cmp -s plain.o it.o
        "$host" "$cc" $words -c it.c -o it.o
        is "$cc $words: a precompiled header ahead: object again" cmp -s plain.o it.o
        is "$cc $words: a precompiled header ahead: calls" since 0 0
    done
    rm -r ahead
    echo 'int it;' >it.c
}

# Names that aren't ASCII, which Clang writes into texts with digits: a second call is a direct hit, one after a change of the header is none.
names_of_bytes() {
    local cc=$1 words name turn
    for name in jürgen "a	tab" 'a"quote' 'a\123' plain; do
        mkdir -p "$name"
        printf '#define ONE 1\n' >"$name/one.h"
        printf '#include "one.h"\nint f(int a) { int unused; return a + ONE; }\n' >"$name/it.c"
        settle
        for words in "" "-g" "-Wall" "-MD -g -Wall"; do
            for turn in first second changed; do
                [ $turn != changed ] || { printf '#define ONE 2\n' >"$name/one.h"; settle; }
                (cd "$name" && $cc $words -c "$PWD/it.c" -o it.o 2>it.err; mv it.o plain.o; mv it.err plain.err)
                mark
                (cd "$name" && "$host" "$cc" $words -c "$PWD/it.c" -o it.o 2>it.err)
                is "$cc $words: a folder $name, $turn: object" cmp -s "$name/plain.o" "$name/it.o"
                is "$cc $words: a folder $name, $turn: messages" cmp -s "$name/plain.err" "$name/it.err"
                [ $turn != second ] || is "$cc $words: a folder $name: a direct hit" since 0 0 1
                [ $turn != changed ] || is "$cc $words: a folder $name: a changed header" since 0 1
            done
            printf '#define ONE 1\n' >"$name/one.h"
        done
        rm -r "$name"
    done
}

# A line of a string that looks like a marker: a byte in it and the digits for that byte aren't the same.
marker_in_string() {
    local cc=$1 name
    for name in 'a\tb' "a	b" 'a\303b' $'a\303b' 'a\tb'; do
        printf 'extern const char *const text = R"(\n# 1 "%s"\n)";\n' "$name" >string.cc
        $cc -c string.cc -o plain.o 2>/dev/null
        "$host" "$cc" -c string.cc -o it.o 2>/dev/null
        is "$cc: a marker in a string, $name" cmp -s plain.o it.o
    done
}

texts() {
    local cc=$1 words dir=$work/texts-$1 directive
    local -x TZ
    TZ=$(noon_zone)
    mkdir -p "$dir/parts.include"
    cd "$dir" || return
    names_of_bytes "$cc"
    marker_in_string "$cc"
    echo one >d.bin
    echo nop >s.inc
    # Files that the assembler takes in, however that is written.
    for directive in '".incbin \"d.bin\""' '".INCBIN \"d.bin\""' '".inc" "bin \"d.bin\""' '"\56inc\x62in \"d.bin\""' \
        '"nop\n\t.Include \"s.inc\""'; do
        text_case "$cc" "$directive" "asm($directive);" 0 0
    done
    # Members and paths of such a name, which take in nothing.
    text_case "$cc" "a member" 'struct o { int include, incbin; } o = { .include = 1, .incbin = 2 }; int f(void) { return o.include; }' 1 1
    text_case "$cc" "a path" 'const char *path = "parts.include/x.h";' 1 1
    echo 'int x;' >parts.include/x.h
    text_case "$cc" "a folder" '#include "parts.include/x.h"' 1 1
    # The time of a call: the compile is later than the text.
    printf 'const char *time = __TIME__;\n' >it.c
    mark
    "$host" "$cc" -c it.c -o it.o
    "$host" "$cc" -c it.c -o it.o
    is "$cc: the time" since 0 0
    # One that is set is the text's own. Clang 14 doesn't go by that variable.
    if [ "$(echo __TIME__ | SOURCE_DATE_EPOCH=1 "$cc" -E -P -x c -)" = '"00:00:01"' ]; then
        SOURCE_DATE_EPOCH=1 "$host" "$cc" -c it.c -o it.o
        SOURCE_DATE_EPOCH=1 "$host" "$cc" -c it.c -o it.o
        SOURCE_DATE_EPOCH=1 $cc -c it.c -o plain.o
        is "$cc: a time that is set: object" cmp -s plain.o it.o
        is "$cc: a time that is set" since 1 1
    fi
    # A precompiled header may be taken in place of the first one.
    printf '#define ONE 1\n' >first.h
    printf '#define TWO 2\n' >second.h
    text_case "$cc" "no precompiled header" $'#include "first.h"\n#include "second.h"\nint a = ONE;' 1 1
    "$cc" -x c-header second.h -o second.h.gch
    text_case "$cc" "a precompiled header of the second one" $'#include "first.h"\n#include "second.h"\nint a = ONE;' 2 0
    "$cc" -x c-header first.h -o first.h.gch
    text_case "$cc" "a precompiled header" $'#include "first.h"\n#include "second.h"\nint a = ONE;' 0 0
    # Where words name the header, as CMake's, the text isn't even asked for.
    for words in "-include first.h" "-include$PWD/first.h" "-Winvalid-pch -include $PWD/first.h -include second.h"; do
        printf 'int a = ONE;\n' >it.c
        rm -f first.log
        $cc $words -c it.c -o plain.o 2>plain.err
        GULMAAT_LOGFILE=$PWD/first.log GULMAAT_LOG_FORMAT=json "$host" "$cc" $words -c it.c -o it.o 2>it.err
        is "$cc $words: a precompiled header: object" cmp -s plain.o it.o
        is "$cc $words: a precompiled header: messages" cmp -s plain.err it.err
        is "$cc $words: a precompiled header: only the compile runs" grep -q '"ran":\[\["C",[0-9,]*\]\]' first.log
    done
    rm first.h.gch second.h.gch
    precompiled_ahead "$cc"
    # An option that a user allows.
    mark
    "$host" "$cc" -fverbose-asm -c it.c -o it.o
    is "$cc: a word that isn't known" since 0 0
    GULMAAT_ALLOW_OPTIONS="-fother -fverbose-asm" "$host" "$cc" -fverbose-asm -c it.c -o it.o
    GULMAAT_ALLOW_OPTIONS="-fother -fverbose-asm" "$host" "$cc" -fverbose-asm -c it.c -o it.o
    is "$cc: a word that is allowed" since 1 1
    text_case "$cc" "a text like an old time" 'const char *time = "00:00:02";' 1 1
    cd "$work" || return
}
