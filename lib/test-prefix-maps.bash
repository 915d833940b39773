# shellcheck shell=bash disable=SC2086,SC2154
# Words that have an object name the call's folder in another way: a part of bin/test-builds, whose host, work and functions it uses.

# A call with these words in the folder `there`, after one in `here`: `hit` where it is one, `miss` where not. In the words @ stands for the folder.
# Each object and message, and each dependency file, is as the compiler alone makes it there.
map_case() {
    local cc=$1 wanted=$2 words=$3 here=$4 there=$5 source=${6:-src/it.c} folder name="$1 $3 in $5 after $4, ${6:-src/it.c}"
    "$host" --clear
    for folder in "$here" "$there"; do
        cd "$folder" || return
        rm -f alone.* ours.*
        # A word may have the folder's name in quotes.
        eval "$cc ${words//@/$folder} -MD -MF alone.d -MT it.o -c $source -o alone.o" 2>alone.err
        mark
        eval "\"\$host\" $cc ${words//@/$folder} -MD -MF ours.d -MT it.o -c $source -o ours.o" 2>ours.err
        is "$name: object" cmp -s alone.o ours.o
        is "$name: messages" cmp -s alone.err ours.err
        is "$name: dependency file" cmp -s alone.d ours.d
    done
    if [ "$wanted" = hit ]; then is "$name: a hit" since 1 0; else is "$name: no hit" since 0 1; fi
    # In direct mode too each folder has an object of its own.
    mark
    eval "\"\$host\" $cc ${words//@/$there} -MD -MF ours.d -MT it.o -c $source -o ours.o" 2>ours.err
    is "$name, again: object" cmp -s alone.o ours.o
    is "$name, again: messages" cmp -s alone.err ours.err
    is "$name, again: a hit" since 1 0
}

# A package in that folder, as one is unpacked: the folder's name is in a macro that no source uses.
unpack() {
    mkdir -p "$1/src/part" "$1/include"
    printf '#define BUILT_IN "%s"\n#define NAME __FILE__\nstatic inline int twice(int a) { return a + a; }\n' "$1" >"$1/include/it.h"
    printf '#include <assert.h>\n#include <stdio.h>\n#include "it.h"\nint f(int a) { assert(a); puts(NAME); puts(__FILE__); return twice(a); }\n' >"$1/src/it.c"
    cp "$1/src/it.c" "$1/src/it.cc"
    cp "$1/src/it.c" "$1/src/part/it.c"
    printf 'int g(int a) { int unused; return a; }\n' >"$1/src/warned.c"
    printf '#include "it.h"\nint g(int a) { int unused; return twice(a); }\n' >"$1/src/quoted.c"
    printf '#include "it.h"\nconst char *built_in = BUILT_IN;\n' >"$1/src/named.c"
    printf '\t.globl q\nq:\tret\n' >"$1/src/it.S"
    cp "$1/src/it.S" "$1/src/it.s"
    printf 'int h;\n' >"$1/src/it.i"
}

prefix_maps() {
    local dir=$work/maps one two words
    one=$dir/one/it-1.0 two=$dir/other/it-1.0.1
    unpack "$one"
    unpack "$two"
    for words in "-g -O2 -ffile-prefix-map=@=." "-O2 -ffile-prefix-map=@=." "-g -O2 -fdebug-prefix-map=@=/usr/src/it" "-O2 -fmacro-prefix-map=@=." \
        "-g3 -ffile-prefix-map=@=. -fdebug-prefix-map=@=/usr/src/it" "-ggdb -gdwarf-4 -ffile-prefix-map=@/=." "-g -Wall -ffile-prefix-map=@= -ffile-prefix-map=@=a"; do
        # With -g3 the object has all macros; a slash more isn't the folder's own name; for a name that is empty the assembler has its own.
        case $words in
            *-g3* | *@/=* | *"@= "*) map_case gcc miss "$words -Iinclude" "$one" "$two" ;;
            *) map_case gcc hit "$words -Iinclude" "$one" "$two" ;;
        esac
    done
    words="-g -ffile-prefix-map=@=."
    map_case g++ hit "$words -Iinclude" "$one" "$two" src/it.cc
    # Messages may quote a header, which has the folder in a macro.
    map_case gcc hit "$words -Iinclude -Wall" "$one" "$two" src/warned.c
    map_case gcc miss "$words -Iinclude -Wall" "$one" "$two" src/quoted.c
    map_case gcc miss "$words -Iinclude" "$one" "$two" src/named.c
    # A folder by its whole path, in a word, in the text or by the source's name.
    map_case gcc miss "$words -I@/include" "$one" "$two"
    map_case gcc miss "$words -Iinclude" "$one" "$two" '$PWD/src/it.c'
    map_case gcc hit "$words -Iinclude -DHERE='\"@\"'" "$one" "$two"
    map_case gcc miss "$words -g3 -Iinclude -DHERE='\"@\"'" "$one" "$two"
    # What has the folder's own name all the same, or may have it.
    for words in "-g -fmacro-prefix-map=@=." "-gstabs -ffile-prefix-map=@=." "-g -gz -ffile-prefix-map=@=." "-g -ffile-prefix-map=@=a=b" \
        "-g -fstack-usage -ffile-prefix-map=@=."; do
        map_case gcc miss "$words -Iinclude" "$one" "$two"
    done
    # Inputs that an assembler takes as they are.
    for words in src/it.S src/it.s src/it.i; do
        map_case_alone gcc "-g -ffile-prefix-map=@=." "$one" "$two" $words
    done
    map_case clang miss "-g -ffile-prefix-map=@=. -Iinclude" "$one" "$two"
    # The folder above: how the folder's path goes on counts.
    words="-g -ffile-prefix-map=\$(dirname @)=. -I../include"
    map_case gcc hit "$words" "$one/src" "$two/src" it.c
    words="-g -ffile-prefix-map=\$(echo @ | sed s,/src.*,,)=. -I$one/include"
    map_case gcc miss "$words" "$one/src" "$one/src/part" it.c
    # Of two words the last one counts, and one that begins as the folder does maps it too.
    map_case gcc hit "-g -ffile-prefix-map=@=a -ffile-prefix-map=@=b -Iinclude" "$one" "$two"
    map_case gcc miss "-g -ffile-prefix-map=@=. -ffile-prefix-map=\${PWD%/*}/it=b -Iinclude" "$one" "$two"
    map_orders "$one" "$two"
    map_links "$one" "$two"
}

# As `map_case`, where no dependency file is written: the objects alone.
map_case_alone() {
    local cc=$1 words=$2 here=$3 there=$4 source=$5 folder
    "$host" --clear
    for folder in "$here" "$there" "$there"; do
        cd "$folder" || return
        eval "$cc ${words//@/$folder} -c $source -o alone.o" 2>alone.err
        eval "\"\$host\" $cc ${words//@/$folder} -c $source -o ours.o" 2>ours.err
        is "$cc $words in $folder, $source: object" cmp -s alone.o ours.o
        is "$cc $words in $folder, $source: messages" cmp -s alone.err ours.err
    done
}

# Other names for the folder, and the same in another order, are other objects.
map_orders() {
    local one=$1 two=$2 words
    "$host" --clear
    cd "$one" || return
    for words in "-g -ffile-prefix-map=$one=a -fdebug-prefix-map=$one=b" "-g -fdebug-prefix-map=$one=b -ffile-prefix-map=$one=a" \
        "-g -ffile-prefix-map=$one=c" "-g -ffile-prefix-map=$dir=c" "-g" "-g -ffile-prefix-map=$two=." "-g -ffile-prefix-map=/usr=here"; do
        gcc $words -Iinclude -c src/it.c -o alone.o
        mark
        "$host" gcc $words -Iinclude -c src/it.c -o ours.o
        is "gcc $words: no hit" since 0 1
        is "gcc $words: object" cmp -s alone.o ours.o
    done
    # The maps of system headers: here the text has the name.
    cd "$two" || return
    for words in "-g -ffile-prefix-map=/usr=here" "-g -ffile-prefix-map=$two=." "-g -ffile-prefix-map=/=there"; do
        gcc $words -Iinclude -c src/it.c -o alone.o
        "$host" gcc $words -Iinclude -c src/it.c -o ours.o
        is "gcc $words in $two: object" cmp -s alone.o ours.o
    done
}

# A folder that is reached by a link has the link's name by PWD, and the map may name either.
map_links() {
    local one=$1 two=$2 folder old
    ln -sfn "$one" "$dir/link"
    ln -sfn "$two" "$dir/long-link"
    "$host" --clear
    for old in "$one" "$dir/link" "$two" "$dir/long-link"; do
        for folder in "$dir/link" "$dir/long-link" "$one" "$two"; do
            cd "$folder" || return
            gcc -g -ffile-prefix-map=$old=. -Iinclude -c src/it.c -o alone.o
            "$host" gcc -g -ffile-prefix-map=$old=. -Iinclude -c src/it.c -o ours.o
            is "gcc -ffile-prefix-map=$old=. in $folder: object" cmp -s alone.o ours.o
        done
    done
}
