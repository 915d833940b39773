# shellcheck shell=bash disable=SC2086,SC2154
# What was made, and of what: parts of bin/test-builds, whose host, work and functions it uses.

# What is at the object's path before a hit: the call ends as by the compiler alone.
output_places() {
    local cc=$1 place make
    printf 'int value = 3;\n' >place.c
    "$host" $cc -c place.c -o place.o
    for place in "a file" "a file of other rights" "an empty file of other rights" "a link to a file" "a link that leads nowhere" "a file of two names" "a read-only file" "a folder" "nothing"; do
        case $place in
            "a file") make='echo old >place.o' ;;
            "a file of other rights") make='echo old >place.o; chmod 640 place.o' ;;
            "an empty file of other rights") make=': >place.o; chmod 640 place.o' ;;
            "a link to a file") make='echo old >target; ln -s target place.o' ;;
            "a link that leads nowhere") make='ln -s target place.o' ;;
            "a file of two names") make='echo old >target; ln target place.o' ;;
            "a read-only file") make='echo old >place.o; chmod 400 place.o' ;;
            "a folder") make='mkdir place.o' ;;
            *) make=true ;;
        esac
        rm -rf place.o target
        eval "$make"
        $cc -c place.c -o place.o 2>plain.err
        echo $? >plain.state
        stat -c '%F %a %h' place.o target >>plain.state 2>&1
        cat place.o target >plain.bytes 2>&1
        rm -rf place.o target
        eval "$make"
        "$host" $cc -c place.c -o place.o 2>ours.err
        echo $? >ours.state
        stat -c '%F %a %h' place.o target >>ours.state 2>&1
        cat place.o target >ours.bytes 2>&1
        is "$cc: onto $place: status and state" cmp -s plain.state ours.state
        is "$cc: onto $place: contents" cmp -s plain.bytes ours.bytes
        is "$cc: onto $place: messages" cmp -s plain.err ours.err
    done
    rm -rf place.o target
    mark
    "$host" $cc -c place.c -o place.o
    is "$cc: onto nothing: a hit" since 1 0
}

# Calls that compilers refuse, warn of or answer in a way of their own, though a call with the same text was kept; and files that can be read only once.
output_refusals() {
    local cc=$1 words
    printf 'int refused;\n' >source
    cp source refused.c
    "$host" $cc -c refused.c -o refused.o
    for words in '-o refused.c' '-o ./refused.c' "-o $PWD/refused.c" '-MF refused.d -o refused.o' '-MD -MF refused.o -o refused.o' \
        '-MD -MF ./refused.o -o refused.o' '-MD -o refused.o'; do
        rm -f refused.o refused.d
        cp source refused.c
        $cc -c refused.c $words 2>plain.err
        echo $? >plain.state
        cat refused.[cdo] >plain.bytes 2>&1
        rm -f refused.o refused.d
        cp source refused.c
        "$host" $cc -c refused.c $words 2>ours.err
        echo $? >ours.state
        cat refused.[cdo] >ours.bytes 2>&1
        is "$cc: $words: status" cmp -s plain.state ours.state
        is "$cc: $words: messages" cmp -s plain.err ours.err
        is "$cc: $words: files" cmp -s plain.bytes ours.bytes
    done
    for words in -include -imacros; do
        $cc -c refused.c $words <(echo 'int once;') -o plain.o
        "$host" $cc -c refused.c $words <(echo 'int once;') -o refused.o
        is "$cc: $words, to be read once" cmp -s plain.o refused.o
    done
    [ "$cc" != clang ] || {
        mark
        "$host" clang --target=x86_64-linux-gnu -fno-integrated-as -c refused.c -o refused.o
        is "clang: another assembler for another machine isn't kept" since 0 0
    }
}

outputs() {
    local cc=$1 dir=$work/outputs-$1 turn number
    mkdir -p "$dir/fake"
    cd "$dir" || return
    "$host" --clear
    # Two calls at once that write one file: each object is kept under its own key.
    for turn in $(seq 1 15); do
        for number in 1 2; do printf 'int it_%s_%s = %s;\n' $turn $number $number >it-$number.c; done
        for number in 1 2; do "$host" $cc -c it-$number.c -o it.o & done
        wait
        for number in 1 2; do
            $cc -c it-$number.c -o plain.o
            "$host" $cc -c it-$number.c -o it.o
            is "$cc: at once, turn $turn, $number" cmp -s plain.o it.o
        done
    done
    # A compiler that changes a source before it compiles, and puts it back: what is made isn't kept.
    printf 'case " $* " in *" -E "*) exec %s "$@" ;; esac\ncp changed.c own.c\n%s "$@"\nstatus=$?\ncp first.c own.c\nexit $status\n' \
        "$(command -v $cc)" "$(command -v $cc)" | stand_in "fake/$cc"
    printf 'int own = 1;\n' >first.c
    printf 'int own = 2;\n' >changed.c
    cp first.c own.c
    settle
    "$host" "$dir/fake/$cc" -c own.c -o own.o
    printf 'exec %s "$@"\n' "$(command -v $cc)" | stand_in "fake/$cc"
    $cc -c own.c -o plain.o
    "$host" "$dir/fake/$cc" -c own.c -o own.o
    is "$cc: a source that is changed while it is compiled" cmp -s plain.o own.o
    # A compiler that makes nothing, beside an old object: that isn't kept.
    printf 'case " $* " in *" -E "* | *" -print"* | *" -v "*) exec %s "$@" ;; esac\nexit 0\n' "$(command -v $cc)" | stand_in "fake/$cc"
    printf 'int nothing = 3;\n' >nothing.c
    printf 'an old object' >nothing.o
    settle
    mark
    "$host" "$dir/fake/$cc" -c nothing.c -o nothing.o
    "$host" "$dir/fake/$cc" -c nothing.c -o nothing.o
    is "$cc: nothing was made" since 0 0
    is "$cc: the old object stays" [ "$(cat nothing.o)" = "an old object" ]
    # A call with an input that isn't preprocessed and an option for a dependency file is kept.
    printf '\t.globl it\nit:\n\tret\n' >asm.s
    settle
    mark
    for turn in first second; do
        rm -f asm.o asm.d
        $cc -MD -Wno-unused-command-line-argument -c asm.s -o asm.o 2>plain.err
        mv asm.o plain.o
        rm -f asm.d
        "$host" $cc -MD -Wno-unused-command-line-argument -c asm.s -o asm.o 2>ours.err
        is "$cc: assembler with -MD, $turn: object" cmp -s plain.o asm.o
        is "$cc: assembler with -MD, $turn: messages" cmp -s plain.err ours.err
        is "$cc: assembler with -MD, $turn: no dependency file" [ ! -e asm.d ]
    done
    is "$cc: assembler with -MD: kept" since 1 1
    output_places "$cc"
    output_refusals "$cc"
    cd "$work" || return
}
