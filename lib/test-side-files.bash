# shellcheck shell=bash disable=SC2086,SC2154
# Files that a compile writes beside its object: a part of bin/test-builds, whose host, work and functions it uses.

# The files of a folder with their modes, and their sums.
state_of() { (cd "$1" && find . -type f -printf '%p %m\n' | sort && find . -type f | sort | xargs sha256sum); }

# A call with these words on that source, twice: status, messages and all files are the compiler's, each with its mode. So that a folder is
# the same for both, each runs in `made`. What GCC notes for coverage has the time of its compile in it: then the second call gives what the
# first one made.
side_case() {
    local cc=$1 words=$2 source=$3 how=$4 turn
    rm -rf made alone && mkdir made
    $cc $words -c $source -o made/it.o >alone.out 2>alone.err
    echo $? >alone.status
    mv made alone
    for turn in first second; do
        rm -rf made "ours-$turn" && mkdir made
        mark
        "$host" $cc $words -c $source -o made/it.o >ours.out 2>ours.err
        echo $? >ours.status
        is "$cc $words $source, $turn: status" cmp -s alone.status ours.status
        is "$cc $words $source, $turn: messages" cmp -s alone.err ours.err
        is "$cc $words $source, $turn: which files" diff <(cd alone && find . | sort) <(cd made && find . | sort)
        [ "$how" = timed ] || is "$cc $words $source, $turn: files" diff <(state_of alone) <(state_of made)
        mv made "ours-$turn"
    done
    is "$cc $words $source: the files of the first call" diff <(state_of ours-first) <(state_of ours-second)
    is "$cc $words $source: a hit" since 1 0 || since 0 0 1
}

# Each kind of file, by words and source.
side_kinds() {
    local cc=$1 words source how=same
    for words in "-fstack-usage" "-g -gsplit-dwarf" "-gsplit-dwarf -fstack-usage -O2"; do
        for source in it.c it.cc empty.c it.S it.s; do
            # Clang warns of words that it doesn't use for an assembler's input, of which no result with messages is kept.
            [ "$cc $source" = "clang it.s" ] || side_case $cc "$words" $source same
        done
    done
    [ $cc != gcc ] || { how=timed; side_case gcc "-fcallgraph-info" it.c same; }
    for words in "--coverage" "-coverage -g" "-ftest-coverage" "-fprofile-arcs" "-fprofile-generate" "-fprofile-generate=$dir/profiles" \
        "--coverage -fprofile-abs-path -fprofile-update=atomic -g -gsplit-dwarf -fstack-usage"; do
        for source in it.c it.cc empty.c it.S; do
            # Clang doesn't know each of them.
            $cc $words -c $source -o known.o 2>known.err || continue
            [ ! -s known.err ] || continue
            side_case $cc "$words" $source $how
        done
    done
    [ $cc != clang ] || side_case clang "-fprofile-instr-generate -fcoverage-mapping" it.c same
}

# What a file beside an object has in it: where the object is, and in which columns.
side_contents() {
    local cc=$1
    mkdir -p made other
    "$host" $cc --coverage -c it.c -o made/it.o
    mark
    "$host" $cc --coverage -c it.c -o other/it.o
    is "$cc: another object's path" since 0 1
    is "$cc: another object's path: in it" grep -q "$dir/other/it.gcda" other/it.o
    (cd other && cp ../it.c . && "$host" $cc --coverage -c it.c -o it.o && mv it.o it.gcno ../made)
    mkdir -p moved && cp it.c moved
    mark
    (cd moved && "$host" $cc --coverage -c it.c -o it.o)
    is "$cc: another folder" since 0 1
    is "$cc: another folder: in it" grep -q "$dir/moved/it.gcda" moved/it.o
    printf 'int f(int a) { int b[4] = { a }; return b[a]; }\n' >column.c
    "$host" $cc -fstack-usage -c column.c -o made/column.o
    printf 'int /* longer */ f(int a) { int b[4] = { a }; return b[a]; }\n' >column.c
    "$host" $cc -fstack-usage -c column.c -o made/column.o
    $cc -fstack-usage -c column.c -o other/column.o
    is "$cc: another column" cmp -s made/column.su other/column.su
    [ $cc = gcc ] || return
    # Of two words that contradict each other the last one counts.
    for words in "-gsplit-dwarf -gno-split-dwarf" "-gno-split-dwarf -gsplit-dwarf" "-gsplit-dwarf -gno-split-dwarf"; do
        rm -f made/order.dwo other/order.dwo
        "$host" clang -g $words -c it.c -o made/order.o
        cp made/order.o ours.o
        cp made/order.dwo ours.dwo 2>/dev/null || rm -f ours.dwo
        rm -f made/order.dwo
        clang -g $words -c it.c -o made/order.o
        is "clang -g $words: object" cmp -s made/order.o ours.o
        is "clang -g $words: file beside it" [ "$(cat made/order.dwo 2>/dev/null | sha256sum)" = "$(cat ours.dwo 2>/dev/null | sha256sum)" ]
    done
    # A comment is a region of what coverage is mapped to.
    printf 'int f(int a) {\n#if 0\n#endif\n  return a; }\n' >region.c
    "$host" clang -fprofile-instr-generate -fcoverage-mapping -c region.c -o made/region.o
    printf 'int f(int a) {\n#if 0\n\n#endif\n  return a; }\n' >region.c
    "$host" clang -fprofile-instr-generate -fcoverage-mapping -c region.c -o made/region.o
    cp made/region.o ours.o
    clang -fprofile-instr-generate -fcoverage-mapping -c region.c -o made/region.o
    is "clang: another region" cmp -s made/region.o ours.o
}

# What lies where a file beside the object is written: the call ends as by the compiler alone.
side_places() {
    local cc=$1 words ending make
    for words in "-fstack-usage su" "-g -gsplit-dwarf dwo"; do
        ending=${words##* }
        words=${words% *}
        "$host" $cc $words -c it.c -o place.o
        for make in "echo old >place.$ending" "echo old >place.$ending; chmod 640 place.$ending" ": >place.$ending; chmod 640 place.$ending" \
            "echo old >target; ln -s target place.$ending" "ln -s target place.$ending" "echo old >target; ln target place.$ending" \
            "echo old >place.$ending; chmod 400 place.$ending" "mkdir place.$ending" true; do
            for turn in plain ours; do
                rm -rf place.* target
                eval "$make"
                if [ $turn = plain ]; then $cc $words -c it.c -o place.o 2>$turn.err; else "$host" $cc $words -c it.c -o place.o 2>$turn.err; fi
                echo $? >$turn.state
                stat -c '%n %F %a %h' place.* target >>$turn.state 2>&1
                cat place.$ending target >$turn.bytes 2>&1
            done
            is "$cc $words: onto ($make): status and state" cmp -s plain.state ours.state
            is "$cc $words: onto ($make): contents" cmp -s plain.bytes ours.bytes
        done
    done
    rm -rf place.* target
}

side_files() {
    local cc=$1 dir=$work/side-$1
    mkdir -p "$dir"
    cd "$dir" || return
    printf '#include <stdio.h>\nint f(int a)\n{\n  char b[40];\n  for (int i = 0; i < a; i++)\n    b[i %% 40] = i;\n  return b[a %% 40];\n}\n' >it.c
    cp it.c it.cc
    printf 'int used;\n' >empty.c
    printf '\t.globl q\nq:\tret\n' >it.S
    cp it.S it.s
    "$host" --clear
    side_kinds $cc
    side_contents $cc
    side_places $cc
    # Passed through: a name of which compilers make different ones, a device, and folders that don't count.
    mark
    "$host" $cc -fstack-usage -c it.c -o .hidden
    "$host" $cc -fstack-usage -c it.c -o /dev/null
    GULMAAT_BASEDIRS=$dir "$host" $cc -fstack-usage -c it.c -o base.o
    is "$cc: names that aren't clear" since 0 0
    is "$cc: folders that don't count: the file" [ -s base.su ]
    # Broken or from elsewhere: a result without what lies beside its object isn't one.
    "$host" $cc -fstack-usage -O1 -c it.c -o why.o
    sed -i 's/40/41/' it.c
    "$host" $cc -fstack-usage -O1 -c it.c -o why.o
    is "$cc: --why" grep -q 'why.o: text: lines of the input\|why.o: text: lines of it.c' <("$host" --why $cc -fstack-usage -O1 -c it.c -o why.o)
    cd "$work" || return
}
