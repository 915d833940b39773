# shellcheck shell=bash disable=SC2016,SC2154
# Messages as the host shows them, beside the compiler alone: a part of bin/test-builds, whose host, work and functions it uses.

# A compiler that prints a line early, and goes on once it was read.
host_shows_early() {
    local cc=$1 way
    printf 'int f(void) { return 1; }\n' >it.c
    stand_in_compiler "$cc" <<'SCRIPT'
echo early >&2
for tries in $(seq 200); do [ ! -e seen ] || break; sleep 0.1; done
[ -e seen ] && echo late >&2
SCRIPT
    for way in pipe terminal; do
        rm -f seen shown it.o
        case $way in
            pipe) "$host" "$PWD/fake/$cc" -c it.c -o it.o 2>&1 ;;
            terminal) script -qfec "'$host' $PWD/fake/$cc -c it.c -o it.o" /dev/null </dev/null ;;
        esac | while read -r line; do
            [ "${line:0:5}" != early ] || touch seen
            echo "${line%$'\r'}" >>shown
        done
        is "$cc: early messages by a $way" [ "$(cat shown)" = $'early\nlate' ]
        "$host" --clear
    done
}

# What is printed on both streams comes in its order; a child that has them open isn't waited for; nothing is missing where it is long.
host_streams() {
    local cc=$1 words
    printf 'int f(void) { return 1; }\n' >it.c
    stand_in_compiler "$cc" <<'SCRIPT'
await() { for tries in $(seq 200); do grep -q "$1" "$SHOWN" && return; sleep 0.1; done; }
for part in 1 2 3; do echo out $part; await "out $part"; echo err $part >&2; await "err $part"; done
SCRIPT
    SHOWN=wanted "$PWD/fake/$cc" -c it.c -o it.o >wanted 2>&1
    SHOWN=shown "$host" "$PWD/fake/$cc" -c it.c -o it.o >shown 2>&1
    is "$cc: order of both streams: all six lines" [ "$(wc -l <shown)" = 6 ]
    is "$cc: order of both streams" cmp wanted shown
    stand_in_compiler "$cc" <<'SCRIPT'
sleep 300 &
echo $! >child
seq 30000
seq 30000 >&2
SCRIPT
    rm -f it.o
    timeout 60 "$host" "$PWD/fake/$cc" -c it.c -o it.o >shown 2>errors
    is "$cc: a child has the streams open: status" [ $? = 0 ]
    kill "$(cat child)"
    is "$cc: a child has the streams open: output" cmp <(seq 30000) shown
    is "$cc: a child has the streams open: messages" cmp <(seq 30000) errors
    # What is still to be read as the compiler ends, since the reader is slow.
    stand_in_compiler "$cc" <<<"$(command -v "$cc")"' "$@"; seq 30000 >&2; exit 0'
    rm -f it.o
    "$host" "$PWD/fake/$cc" -c it.c -o it.o 2>&1 | (sleep 1; cat) >shown
    is "$cc: a slow reader" cmp <(seq 30000) shown
    is "$cc: a slow reader: object" [ -s it.o ]
    # Colours and other escapes on standard output stay as they are.
    stand_in_compiler "$cc" <<'SCRIPT'
printf '\033[31mred\033[m\033[K\033['
SCRIPT
    as_alone "$cc: escapes on standard output" 2 "$PWD/fake/$cc" -c it.c -o it.o
    printf 'char it[] = "\033[31mred\033[m\033[K";\n' >codes.c
    for words in "-S -o -" "-c -o -" "-c -o /dev/stdout" "-E"; do
        # shellcheck disable=SC2086
        as_alone "$cc $words" 2 "$cc" $words codes.c
    done
}

# Escapes of a source stay, also those that look like a compiler's, and colours are those of the compiler alone: no terminal, and a terminal under
# each variable that is asked for.
host_colours() {
    local cc=$1 source words variables turn
    printf 'int f(void) { int x; return x; }\n' >plain.c
    printf 'int f(void) { int x; return x; } // \033[01;31m\033[Kred\033[m\033[K and \033[0;1;32mgreen\033[0m\n' >codes.c
    printf '#include "codes.h"\nint f(void) { int x; return x; }\n' >header.c
    printf '__attribute__((deprecated("\033[1mold\033[0m"))) int old(void);\n#define OLD old() /* \033[31m */\nstatic int g(void) { return OLD; }\n' >codes.h
    for source in plain codes header; do
        as_alone "$cc: $source.c" 3 "$cc" -Wall -c $source.c -o it.o
        for words in always never auto "always -fdiagnostics-color=never" "never -fdiagnostics-color=always"; do
            # shellcheck disable=SC2086
            as_alone "$cc: $source.c, $words" 2 "$cc" -Wall -fdiagnostics-color=$words -c $source.c -o it.o
        done
        for variables in A=1 TERM=dumb "-u TERM" GCC_COLORS= NO_COLOR=1 GCC_COLORS=warning=07; do
            script -qec "env $variables $cc -Wall -c $source.c -o it.o" /dev/null </dev/null >wanted
            for turn in 1 2; do
                script -qec "env $variables '$host' $cc -Wall -c $source.c -o it.o" /dev/null </dev/null >shown
                is "$cc: $source.c at a terminal, $variables, $turn" cmp wanted shown
            done
        done
    done
    # GCC counts the escapes of colours where it breaks lines.
    printf 'int main( { return 0; }\n' >wrong.c
    for words in -fmessage-length=0 -fmessage-length=50; do
        as_alone "$cc: header.c, $words" 2 "$cc" -Wall $words -c header.c -o it.o
        as_alone "$cc: wrong.c, $words" 2 "$cc" $words -c wrong.c -o it.o
    done
    mark
    "$host" "$cc" -Wall -c plain.c -o it.o 2>shown
    is "$cc: plain.c is kept" since 1 0
}
