# shellcheck shell=bash disable=SC2086,SC2154
# Files that would be found elsewhere now: parts of bin/test-builds, whose host, work and functions it uses.

# A call by gulmaat and one by the compiler end the same, print the same, and write the same object and dependency file.
search_call() {
    local name=$1 status
    shift
    rm -f it.o it.d
    "$@" -MD -MF it.d -c it.c -o it.o >plain.out 2>plain.err
    status=$?
    rm -f plain.o plain.d
    [ ! -e it.o ] || mv it.o plain.o
    [ ! -e it.d ] || mv it.d plain.d
    "$host" "$@" -MD -MF it.d -c it.c -o it.o >ours.out 2>ours.err
    is "$name: status" [ $? = $status ]
    is "$name: output" cmp -s plain.out ours.out
    is "$name: messages" cmp -s plain.err ours.err
    [ $status != 0 ] || is "$name: object" cmp -s plain.o it.o
    [ $status != 0 ] || is "$name: dependency file" cmp -s plain.d it.d
}
# Calls until there is a direct hit, then makes the change and undoes it, twice: each call is as by the compiler alone, the first one after a
# change too. The last one is a direct hit again.
search_case() {
    local name=$1 change=$2 back=$3 turn
    shift 3
    "$host" --clear
    for turn in first second third; do
        [ $turn != third ] || mark
        search_call "$name, $turn" "$@"
        settle
    done
    is "$name: a direct hit" since 0 0 1
    for turn in change back change back; do
        eval "${!turn}"
        settle
        search_call "$name, $turn" "$@"
        search_call "$name, $turn again" "$@"
    done
    mark
    search_call "$name, in the end" "$@"
    is "$name: a direct hit in the end" since 0 0 1
}
# There is no manifest for such a source, and what is made is right.
search_none() {
    local name=$1 turn
    shift
    "$host" --clear
    for turn in first second third; do
        [ $turn != third ] || mark
        search_call "$name, $turn" "$@"
        settle
    done
    is "$name: a hit by text" since 1 0 0
}

# A tree with a folder of each kind, of which the last one has the file.
search_tree() {
    local folder
    rm -rf early late quoted system after beside one two it.c
    mkdir -p early late quoted system after beside one two
    for folder in late one; do printf '#define VALUE 1\n' >$folder/value.h; done
    printf '#define VALUE 2\n' >two/value.h
    printf '#include "value.h"\n#include <stddef.h>\nint value = VALUE;\n' >it.c
    settle
}

# Rights that are taken away: by a user other than root, with a cache directory of its own.
search_rights() {
    local cc=$1 words
    words=$(search_many_words)
    search_tree
    search_case "$cc: a folder that can't be looked into" "chmod 000 early" "chmod 700 early" $cc -Iearly -Ilate
    search_case "$cc: a header that can't be read" "chmod 000 late/value.h" "chmod 600 late/value.h" $cc -Iearly -Ilate
    search_case "$cc: a source that can't be read" "chmod 000 it.c" "chmod 600 it.c" $cc -Iearly -Ilate
    search_case "$cc: a folder that can't be listed" "chmod 300 early" "chmod 700 early" $cc -Iearly -Ilate
    search_many_tree
    chmod 311 many/folder-75
    search_case "$cc: a header in a folder that can't be listed" 'printf "#define VALUE 7\n" >many/folder-75/value.h' "rm many/folder-75/value.h" $cc $words
}
# Runs these as another user, and adds their counts of what passed and failed.
search_as_another() {
    local cc=$1 dir=$work/rights-$1 functions counts
    chmod 711 "$work"
    mkdir -p "$dir"
    chown 65534 "$dir"
    functions=$(declare -f is counted mark since settle search_call search_case search_tree search_many_tree search_many_words search_rights)
    cd "$dir" || return
    setpriv --reuid=65534 --regid=65534 --clear-groups env GULMAAT_DIR="$dir/cache" \
        bash -c "$functions; host=$host passed=0 failed=0; search_rights $cc; echo \$passed \$failed >counts"
    read -r -a counts <counts
    passed=$((passed + counts[0])) failed=$((failed + counts[1]))
    cd "$work" || return
}

searches() {
    local cc=$1 dir=$work/searches-$1 new='printf "#define VALUE 7\n" >'
    mkdir -p "$dir"
    cd "$dir" || return
    search_tree
    # A new file ahead of the one that was found, in each kind of folder.
    search_case "$cc: ahead by -I" "$new early/value.h" "rm early/value.h" $cc -Iearly -Ilate
    search_case "$cc: ahead by -iquote" "$new quoted/value.h" "rm quoted/value.h" $cc -iquote quoted -Ilate
    search_case "$cc: ahead by -isystem" "$new early/value.h" "rm early/value.h" $cc -isystem early -isystem late
    search_case "$cc: ahead by -idirafter" "$new early/value.h" "rm early/value.h" $cc -idirafter early -idirafter late
    CPATH=early:late search_case "$cc: ahead by CPATH" "$new early/value.h" "rm early/value.h" $cc
    search_case "$cc: beside the source" "$new value.h" "rm value.h" $cc -Ilate
    search_case "$cc: in a folder of its own" "mkdir -p early/sub; $new early/sub/value.h" "rm -r early/sub" $cc -Iearly/sub -Ilate
    search_case "$cc: a folder that appears" "mkdir later; $new later/value.h" "rm -r later" $cc -Ilater -Ilate
    search_case "$cc: a file that goes" "mv one/value.h gone.h" "mv gone.h one/value.h" $cc -Ione -Itwo
    ln -s one turned
    search_case "$cc: a link that is turned" "ln -sfn two turned" "ln -sfn one turned" $cc -Iturned
    # A header with a guard, and a link to it, which becomes a file of its own.
    printf '#ifndef GUARD\n#define GUARD\n#endif\n' >one/guarded.h
    ln -s ../one/guarded.h two/guarded.h
    printf '#include "one/guarded.h"\n#include "two/guarded.h"\n#ifndef VALUE\n#define VALUE 1\n#endif\nint value = VALUE;\n' >it.c
    settle
    search_case "$cc: a link that becomes a file" "rm two/guarded.h; $new two/guarded.h" \
        "rm two/guarded.h; ln -s ../one/guarded.h two/guarded.h" $cc
    # A folder of headers of the system by a link: GCC has the shorter name of the folder that it leads to in its markers.
    printf '#include <value.h>\nint value = VALUE;\n' >it.c
    ln -s one a-link-that-has-a-name-of-more-bytes-than-the-folder-has
    settle
    search_case "$cc: a link to a folder of the system" "ln -sfn two a-link-that-has-a-name-of-more-bytes-than-the-folder-has" \
        "ln -sfn one a-link-that-has-a-name-of-more-bytes-than-the-folder-has" \
        $cc -isystem "$PWD/a-link-that-has-a-name-of-more-bytes-than-the-folder-has"
    rm a-link-that-has-a-name-of-more-bytes-than-the-folder-has
    # A folder that the compiler leaves out as one that it has already: it becomes one of its own, with the header in it.
    printf '#define VALUE 3\n' >two/next.h
    ln -s two twin
    printf '#if __has_include_next(<next.h>)\n#include_next <next.h>\n#else\n#define VALUE 4\n#endif\n' >one/next.h
    printf '#include <next.h>\nint value = VALUE;\n' >it.c
    settle
    search_case "$cc: a twin that becomes a folder" "rm twin; mkdir twin; $new twin/value.h" "rm -r twin; ln -s two twin" \
        $cc -Ione -I./one -Itwo -Itwin
    rm twin
    search_tree
    # In another checkout all folders are other ones, and all files.
    search_call "$cc: before another checkout" $cc -Ione -I./one -Itwo -Ione
    cp -a one copied
    rm -r one
    mv copied one
    touch one/value.h
    settle
    mark
    search_call "$cc: in another checkout" $cc -Ione -I./one -Itwo -Ione
    is "$cc: a direct hit in another checkout" since 0 0 1
    ln -s ../nowhere.h early/value.h
    search_none "$cc: a link that leads nowhere" $cc -Iearly -Ilate
    printf '#define VALUE 9\n' >nowhere.h
    search_call "$cc: it leads somewhere now" $cc -Iearly -Ilate
    rm nowhere.h early/value.h
    # A header that includes another one: one beside it, and one in a later folder.
    search_tree
    printf '#include "value.h"\n' >beside/taken.h
    printf '#include "taken.h"\nint value = VALUE;\n' >it.c
    settle
    search_case "$cc: beside a header" "$new beside/value.h" "rm beside/value.h" $cc -Ibeside -Ilate
    printf '#include_next <value.h>\n' >beside/value.h
    printf '#include <value.h>\nint value = VALUE;\n' >it.c
    settle
    search_case "$cc: the next one" "$new early/value.h" "rm early/value.h" $cc -Ibeside -Iearly -Ilate
    # The input was found in no folder: the next one is looked for as any other. The compilers warn of that.
    printf '#include_next "value.h"\nint value = VALUE;\n' >it.c
    settle
    search_case "$cc: the next one in the input" "$new value.h" "rm value.h" $cc -w -Ilate
    # An option that includes one: it is looked for in the call's folder first.
    printf 'int value = VALUE;\n' >it.c
    settle
    search_case "$cc: -include" "$new value.h" "rm value.h" $cc -include value.h -Ilate
    search_case "$cc: -imacros" "$new value.h" "rm value.h" $cc -imacros value.h -Ilate
    # Files that are asked for and not included.
    printf '#if __has_include("asked.h")\nint value = 1;\n#else\nint value = 2;\n#endif\n' >it.c
    settle
    search_case "$cc: one that is asked for" "$new early/asked.h" "rm early/asked.h" $cc -Iearly
    search_case "$cc: one that is asked for, a link" "$new two/real.h; ln -s ../two/real.h early/asked.h" "rm early/asked.h two/real.h" $cc -Iearly
    printf '#define HAS(x) __has_include(x)\n#if HAS(<asked.h>)\nint value = 1;\n#else\nint value = 2;\n#endif\n' >it.c
    settle
    search_case "$cc: one that a macro asks for" "$new early/asked.h" "rm early/asked.h" $cc -Iearly
    # What is skipped: a second file that is a link to the first one, or equal to it.
    printf '#pragma once\nstatic int twice_@;\n' >one/once.h
    printf '#include "one/once.h"\n#include "two/once.h"\nint value;\n' >it.c
    sed -i 's/_@//' one/once.h
    ln -s ../one/once.h two/once.h
    settle
    search_none "$cc: a link to a file that is taken in once" $cc
    rm two/once.h
    printf '#pragma once\nstatic int other;\n' >two/once.h
    search_call "$cc: and a file of its own" $cc
    rm two/once.h
    search_many "$cc"
    search_spellings "$cc"
    search_names "$cc"
    search_hidden "$cc"
    search_spliced "$cc"
    search_no_folder "$cc"
    search_tree
    search_messages "$cc"
    search_unclear "$cc"
    search_others "$cc"
    cd "$work" || return
}

# Many folders, of which the last one has what is asked for: each is listed once some names were looked for in it.
search_many_tree() {
    local number
    rm -rf many it.c
    for number in {1..150}; do mkdir -p "many/folder-$number"; done
    for number in {1..8}; do
        printf 'static int of_%s;\n' "$number" >"many/folder-150/name-$number.h"
        printf '#include <name-%s.h>\n' "$number" >>it.c
    done
    mkdir many/folder-150/deep
    printf '#define VALUE 1\n' | tee many/folder-150/value.h many/folder-150/Value.hh >many/folder-150/deep/value.h
    printf '#include <value.h>\nint value = VALUE;\n' >>it.c
    settle
}
search_many_words() { printf -- '-Imany/folder-%s ' {1..150}; }
search_many() {
    local cc=$1 words name middle=many/folder-75 made='printf "#undef VALUE\n#define VALUE 7\n" >'
    words=$(search_many_words)
    search_many_tree
    search_case "$cc: in the middle of many" "${made}$middle/value.h" "rm $middle/value.h" $cc $words
    search_case "$cc: a link in the middle of many" "ln -s ../folder-150/name-1.h $middle/value.h" "rm $middle/value.h" $cc -DVALUE=3 $words
    search_case "$cc: a folder in the middle of many" "mkdir $middle/value.h" "rmdir $middle/value.h" $cc $words
    search_case "$cc: many folders that change" "touch many/folder-{1..149}/other.h; ${made}$middle/value.h" "rm many/folder-{1..149}/other.h $middle/value.h" \
        $cc $words
    mark
    touch many/folder-{1..149}/other.h
    settle
    search_call "$cc: many folders that change, and no name" $cc $words
    is "$cc: a direct hit where many folders change" since 0 0 1
    # Names that no listing tells: the folder is looked at as without one.
    for name in $'\377.h' größe.h; do
        touch "$middle/$name"
        settle
        search_case "$cc: beside $name" "${made}$middle/value.h" "rm $middle/value.h" $cc $words
        rm "$middle/$name"
    done
    for name in deep/value.h Value.hh ../folder-75/asked.h; do
        sed -i /value/d it.c
        printf '#if __has_include(<%s>)\n#include <%s>\n#else\n#define VALUE 2\n#endif\nint value = VALUE;\n' "$name" "$name" >>it.c
        settle
        search_case "$cc: $name in the middle of many" "mkdir -p $middle/deep; ${made}$middle/${name#../folder-75/}" \
            "rm $middle/${name#../folder-75/}; rmdir $middle/deep" $cc $words
        search_many_tree
    done
    # A link there that leads nowhere, and then somewhere.
    ln -s ../nowhere.h $middle/value.h
    search_none "$cc: a link that leads nowhere in the middle of many" $cc $words
    printf '#define VALUE 9\n' >many/nowhere.h
    search_call "$cc: it leads somewhere now, in the middle of many" $cc $words
    rm -r many
    search_tree
}

# How a directive may be written, and what looks like one in a string.
search_spellings() {
    local cc=$1 text
    for text in '/* a */ #include <value.h> /* b */' '/* a *\\\n/ #include <value.h>' '\357\273\277#include <value.h>' \
        '#include <value.h>\nconst char *mark = "%%:";' '// See asm-???/value.h.\n#include <value.h>'; do
        printf "$text\nint value = VALUE;\n" >it.c
        settle
        search_case "$cc: written as $text" 'printf "#define VALUE 7\n" >early/value.h' "rm early/value.h" $cc -Iearly -Ilate
    done
    for text in '%%:include <value.h>' '/* a */ %%:include <value.h>' '%%\\\n:include <value.h>'; do
        printf "$text\nint value = VALUE;\n" >it.c
        settle
        search_none "$cc: written as $text" $cc -Ilate
    done
}

# Names that macros stand for, and times that are pasted: of these there is no manifest.
search_names() {
    local cc=$1
    printf '#define NAME "value.h"\n#include NAME\nint value = VALUE;\n' >it.c
    settle
    search_case "$cc: a name that is defined" 'printf "#define VALUE 7\n" >early/value.h' "rm early/value.h" $cc -Iearly -Ilate
    printf '#include NAME\nint value = VALUE;\n' >it.c
    settle
    search_case "$cc: a name that a word defines" 'printf "#define VALUE 7\n" >early/value.h' "rm early/value.h" \
        $cc -DNAME='"value.h"' -Iearly -Ilate
    search_case "$cc: a name that a word of its own defines" 'printf "#define VALUE 7\n" >early/value.h' "rm early/value.h" \
        $cc -D 'NAME=<value.h>' -Iearly -Ilate
    search_case "$cc: a name that words define" 'printf "#define VALUE 7\n" >early/value.h' "rm early/value.h" \
        $cc -DOTHER='"value.h"' -DNAME=OTHER -Iearly -Ilate
    printf '#define OTHER "value.h"\n#define NAME OTHER\n#include NAME\nint value = VALUE;\n' >it.c
    settle
    search_case "$cc: a name that is defined by another one" 'printf "#define VALUE 7\n" >early/value.h' "rm early/value.h" \
        $cc -Iearly -Ilate
    printf '#define OTHER "value.h"\n#define NAME OTHER\n// See asm-???/value.h.\n#include NAME\nint value = VALUE;\n' >it.c
    settle
    search_case "$cc: a name that is defined by another one, beside a ??/" 'printf "#define VALUE 7\n" >early/value.h' "rm early/value.h" \
        $cc -Iearly -Ilate
    printf '#define NAME <stdio.h>\n#if __has_include(NAME)\nint value = 1;\n#endif\n' >it.c
    settle
    search_none "$cc: a name that is computed, asked for" $cc
    # A file that the text names only by a `#line` directive isn't read, so what it asks for doesn't count.
    printf '#include $name\n' >script
    printf '#line 7 "script"\n#include "value.h"\nint value = VALUE;\n' >it.c
    settle
    search_case "$cc: a script that a line names" 'printf "#define VALUE 7\n" >early/value.h' "rm early/value.h" $cc -Iearly -Ilate
    printf '#if 0\n#include $name\n#endif\n' >script
    printf '#line 7 "script"\n#include "script"\nint value = 1;\n' >it.c
    settle
    search_case "$cc: a script that is included too" 'echo "#define VALUE" >>script' 'printf "#if 0\n#include \$name\n#endif\n" >script' $cc
    rm script
    printf '#define PASTE(a, b) a ## b\nint value = sizeof(PASTE(__DA, TE__));\n' >it.c
    settle
    TZ=$(noon_zone) search_none "$cc: a day that is pasted" $cc
    printf '#ifdef NOW\nint value = 1;\n#endif\n' >it.c
    settle
    search_none "$cc: a time in a word" $cc -DNOW=__TIME__
    printf '#include "value.h"\nint value = VALUE;\nconst char day[] = __DATE__;\n' >it.c
    settle
    search_case "$cc: a day that a word defines" 'printf "#define VALUE 7\n" >early/value.h' "rm early/value.h" \
        $cc -Wno-builtin-macro-redefined -D__DATE__='"then"' -Iearly -Ilate
    [ "$cc" != gcc ] || {
        printf '#pragma GCC dependency "late/value.h"\nint value;\n' >it.c
        settle
        search_none "$cc: a file that is only compared by its time" $cc
    }
}

# Files that a word's macro asks for, a probe of two pieces and a pragma in a string: there is no manifest.
search_hidden() {
    local cc=$1 text
    printf '#if HAS("asked.h")\nint value = 1;\n#endif\n' >it.c
    settle
    search_none "$cc: a word's macro asks" $cc '-DHAS(x)=__has_include(x)'
    search_none "$cc: a macro that is handed to the preprocessor asks" $cc -Wp,-DHAS=__has_include
    for text in '#if PASTE(__has_, include)("asked.h")' '#if __has_inc\\\nlude("asked.h")' '#if __has_include /* a */ ("asked.h")'; do
        printf "#define PASTE(a, b) a ## b\n$text\nint value = 1;\n#endif\n" >it.c
        settle
        search_none "$cc: asked by $text" $cc
    done
    for text in '_Pragma("GCC dependency \\"late/value.h\\"")' '#pragma GCC \\\ndependency "late/value.h"'; do
        printf "$text\nint value;\n" >it.c
        settle
        search_none "$cc: compared by $text" $cc
    done
}

# Names that go on in the next line, sources in other sets of characters, and a time that a macro takes into another file: there is no manifest.
search_spliced() {
    local cc=$1 text
    for text in '#include "val\\\nue.h"' '#include <val\\\nue.h>' '#define NAME "val\\\nue.h"\n#include NAME' '#define NA\\\nME "value.h"\n#include NAME' \
        '#if __has_include("val\\\nue.h")\n#include "value.h"\n#endif' '#define HA\\\nS 1\n#define CAT(x) <x.h>\n#ifdef HAS\n#include CAT(value)\n#endif'; do
        printf "$text\nint value = VALUE;\n" >it.c
        settle
        search_none "$cc: goes on in $text" $cc -Iearly -Ilate
    done
    printf '#define MANY \\\n 7\n#include "value.h"\nint value = VALUE + MANY;\n' >it.c
    settle
    search_case "$cc: a macro that goes on" 'printf "#define VALUE 7\n" >early/value.h' "rm early/value.h" $cc -Iearly -Ilate
    printf '#include "value.h"\nint value = VALUE;\nconst char *usage = "One.\\n\\\nWith none.\\n";\n' >it.c
    settle
    search_case "$cc: a string that goes on" 'printf "#define VALUE 7\n" >early/value.h' "rm early/value.h" $cc -Iearly -Ilate
    [ "$cc" != gcc ] || {
        printf '#include "value.h"\nint value = VALUE;\n' >it.c
        settle
        search_none "$cc: another set of characters" $cc -finput-charset=ISO-8859-1 -Iearly -Ilate
        search_case "$cc: the usual set of characters" 'printf "#define VALUE 7\n" >early/value.h' "rm early/value.h" \
            $cc -finput-charset=UTF-8 -Iearly -Ilate
    }
    printf '#define STAMP __TIMESTAMP__\n' >late/stamp.h
    printf '#include "stamp.h"\nconst char *stamp = STAMP;\n' >it.c
    touch -d '2001-01-01 12:00' it.c late/stamp.h
    settle
    search_none "$cc: a stamp that a macro takes into another file" $cc -Ilate
    touch -d '2002-01-01 12:00' it.c
    search_call "$cc: a stamp that a macro takes into another file, later" $cc -Ilate
}

# What the compiler is told to look in is no folder at first, or not any more.
search_no_folder() {
    local cc=$1 turn
    search_tree
    printf '#include "value.h"\nint value = VALUE;\n' >it.c
    printf '#define VALUE 3\n' >late/value.h
    rm -rf early
    echo file >early
    settle
    for turn in first second; do search_call "$cc: a file in a folder's place, $turn" $cc -Iearly -Ilate; done
    rm early
    mkdir early
    printf '#define VALUE 4\n' >early/value.h
    settle
    for turn in first second; do search_call "$cc: a folder in a file's place, $turn" $cc -Iearly -Ilate; done
    rm early/value.h
    settle
    for turn in first second third; do search_call "$cc: an empty folder, $turn" $cc -Iearly -Ilate; done
    rmdir early
    settle
    for turn in first second third; do search_call "$cc: no folder, $turn" $cc -Iearly -Ilate; done
    echo file >early
    settle
    for turn in first second; do search_call "$cc: a file again, $turn" $cc -Iearly -Ilate -Wmissing-include-dirs; done
}

# Messages beside texts that don't show what they say, and lines that they quote: each call prints its own.
search_messages() {
    local cc=$1
    search_tree
    printf '#warning one\n#define VALUE 1\n' >late/value.h
    settle
    search_case "$cc: a message of the preprocessor" "printf '#warning two\n#define VALUE 1\n' >late/value.h" \
        "printf '#warning one\n#define VALUE 1\n' >late/value.h" $cc -Ilate
    search_case "$cc: a message of the preprocessor that goes" "printf '#define VALUE 1\n' >late/value.h" \
        "printf '#warning one\n#define VALUE 1\n' >late/value.h" $cc -Ilate
    printf 'int value(void) { return 1 / 0; } /* one */\n' >it.c
    settle
    search_case "$cc: a quoted comment" "printf 'int value(void) { return 1 / 0; } /* two */\n' >it.c" \
        "printf 'int value(void) { return 1 / 0; } /* one */\n' >it.c" $cc
    # Clang says that it doesn't use this.
    search_tree
    search_case "$cc: a message of the driver" 'printf "#define VALUE 7\n" >early/value.h' "rm early/value.h" $cc -Wl,-z,now -Iearly -Ilate
}

# Names that macros make, as in headers of Boost and the Linux kernel: the preprocessor shows which these are.
search_unclear() {
    local cc=$1 form front
    local made='printf "#undef VALUE\n#define VALUE 7\n" >'
    search_tree
    for form in '#x' '<x>'; do
        {
            printf '#ifdef CREATE_TRACE_POINTS\n#undef CREATE_TRACE_POINTS\n#define TEXT(x) %s\n#define NAMED(x) TEXT(x)\n' "$form"
            printf '#include NAMED(value.h)\n#define CREATE_TRACE_POINTS\n#else\n#define VALUE 5\n#endif\n'
        } >beside/trace.h
        printf '#include "beside/trace.h"\nint value = VALUE;\n' >it.c
        settle
        search_case "$cc: $form that isn't live" "${made}early/value.h" "rm early/value.h" $cc -Iearly -Ilate
        search_case "$cc: $form" "${made}early/value.h" "rm early/value.h" $cc -DCREATE_TRACE_POINTS -Iearly -Ilate
        search_case "$cc: $form beside it" "${made}beside/value.h" "rm beside/value.h" $cc -DCREATE_TRACE_POINTS -Iearly -Ilate
        search_case "$cc: $form for quotes" "${made}quoted/value.h" "rm quoted/value.h" $cc -DCREATE_TRACE_POINTS -iquote quoted -Iearly -Ilate
        search_case "$cc: $form, a folder in a folder" "mkdir early/d; ${made}early/d/value.h" "rm -r early/d" $cc -DCREATE_TRACE_POINTS -Iearly -Ilate
        search_case "$cc: $form that changes" "printf '#define VALUE 9\n' >late/value.h" "printf '#define VALUE 1\n' >late/value.h" \
            $cc -DCREATE_TRACE_POINTS -Ilate
        printf '#define CREATE_TRACE_POINTS\n#include "beside/trace.h"\nint value = VALUE;\n' >it.c
        settle
        search_case "$cc: $form by the source" "${made}early/value.h" "rm early/value.h" $cc -Iearly -Ilate
    done
    # In a file that takes in itself, and in one that is in a deeper folder.
    printf '#ifndef VALUE\n#define VALUE 3\n#include __FILE__\n#else\nint more;\n#endif\n' >late/self.h
    printf '#include <self.h>\nint value = VALUE;\n' >it.c
    settle
    search_case "$cc: itself" "${made}early/self.h" "rm early/self.h" $cc -I. -Iearly -Ilate
    mkdir -p late/deep
    printf '#define VALUE 4\n' >late/deep/value.h
    printf '#define NAMED(x) <deep/x>\n#include NAMED(value.h)\n' >late/asks.h
    printf '#include <asks.h>\nint value = VALUE;\n' >it.c
    settle
    search_case "$cc: in a deeper folder" "mkdir early/deep; ${made}early/deep/value.h" "rm -r early/deep" $cc -Iearly -Ilate
    printf 'int value = VALUE;\n' >it.c
    settle
    search_case "$cc: in a file that a word takes in" "mkdir early/deep; ${made}early/deep/value.h" "rm -r early/deep" \
        $cc -include asks.h -Iearly -Ilate
    search_case "$cc: in a file of which a word takes the macros" "mkdir early/deep; ${made}early/deep/value.h" "rm -r early/deep" \
        $cc -imacros asks.h -Iearly -Ilate
    printf '#define NAMED(x) <deep/x>\n#include NAMED(value.h)\nint value = VALUE;\n' >it.c
    settle
    search_case "$cc: in the input" "mkdir early/deep; ${made}early/deep/value.h" "rm -r early/deep" $cc -Iearly -Ilate
    # A file that was taken in before, and isn't again: the text doesn't say that it was asked for.
    printf '#include <asks.h>\nint value = VALUE;\n' >it.c
    printf '#include "value.h"\n#define NAMED(x) <x>\n#include NAMED(value.h)\n' >late/asks.h
    for front in '#pragma once\n#define VALUE 1\n' '#ifndef GUARD\n#define GUARD\n#define VALUE 1\n#endif\n'; do
        printf "$front" >late/value.h
        settle
        search_case "$cc: a file that was taken in before" "${made}early/value.h" "rm early/value.h" $cc -Iearly -Ilate
    done
    # The next one, in a file with comments and lines that have other numbers.
    printf '# /* one\n# two */\n# // three\n#line 7 "other.h"\n#define NAMED(x) <x>\n#include_next NAMED(asks.h)\n' >early/asks.h
    settle
    search_case "$cc: the next one" "mkdir later; ${made}later/asks.h" "rm -r later" $cc -Iearly -Ilater -Ilate
    # Markers in a source may be taken for those of the text.
    printf '# 7 "other.h" 1\n#define NAMED(x) <x>\n#include NAMED(value.h)\n# 9 "early/asks.h" 2\n' >early/asks.h
    settle
    search_none "$cc: in a file with markers" $cc -Iearly -Ilate
    rm -r late/deep late/self.h late/asks.h early/asks.h beside/trace.h
}

# Precompiled headers, branches, folders with objects in them, another GCC, and calls at once.
search_others() {
    local cc=$1 number
    search_tree
    search_call "$cc: before a precompiled header" $cc -Ione
    search_call "$cc: before a precompiled header, again" $cc -Ione
    $cc -x c-header one/value.h -o one/value.h.gch
    search_call "$cc: a precompiled header" $cc -Ione
    rm one/value.h.gch
    # Two branches: on one a header is changed and another one is added.
    search_case "$cc: branches" "printf '#define VALUE 3\n' >late/value.h; printf 'int more;\n' >early/more.h" \
        "printf '#define VALUE 1\n' >late/value.h; rm early/more.h" $cc -Iearly -Ilate
    # Objects in a searched folder.
    search_case "$cc: objects beside headers" "touch early/one.o late/two.o" "rm early/one.o late/two.o" $cc -Iearly -Ilate
    mark
    for number in 1 2 3; do
        touch "late/$number.o"
        search_call "$cc: an object beside headers, $number" $cc -Iearly -Ilate
    done
    is "$cc: objects beside headers: direct hits" since 0 0 3
    [ "$cc" != clang ] || search_toolchain
    # Eight at once, and the file appears.
    "$host" --clear
    for number in 1 2 3 4 5 6 7 8; do "$host" $cc -Iearly -Ilate -c it.c -o "it-$number.o" & done
    wait
    printf '#define VALUE 7\n' >early/value.h
    for number in 1 2 3 4 5 6 7 8; do "$host" $cc -Iearly -Ilate -c it.c -o "it-$number.o" & done
    wait
    $cc -Iearly -Ilate -c it.c -o plain.o
    for number in 1 2 3 4 5 6 7 8; do is "$cc: eight at once, $number" cmp -s plain.o "it-$number.o"; done
    rm early/value.h
}

# Clang takes headers from the newest GCC that it finds.
search_toolchain() {
    local version
    for version in 11 12; do
        mkdir -p tools/lib/gcc/x86_64-linux-gnu/$version tools/include/c++/$version
        touch tools/lib/gcc/x86_64-linux-gnu/$version/crtbegin.o
        printf '#define VALUE %s\n' $version >tools/include/c++/$version/newest.h
    done
    mv tools/lib/gcc/x86_64-linux-gnu/12 twelve
    printf '#include <newest.h>\nint value = VALUE;\n' >it.c
    settle
    search_case "clang: another GCC" "mv twelve tools/lib/gcc/x86_64-linux-gnu/12" "mv tools/lib/gcc/x86_64-linux-gnu/12 twelve" \
        clang --gcc-toolchain="$PWD/tools" -x c++
    search_tree
}

# Trees of headers that are changed at random.
random_trees() { python3 "$top/lib/searches/random_trees.py" "$host" "$1" 300; }
