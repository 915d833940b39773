# shellcheck shell=bash disable=SC2016,SC2154
# Arguments of commands: a part of bin/test-builds. Each command ends as by the compiler alone, with the same status, the same messages on
# both streams and the same files, at a first call, at a second one, and after a change of the source.

# The files in which each command of this part runs, in a new folder: at/.
word_files() {
    rm -rf at
    mkdir -p "at/d ir" at/links at/share
    (
        cd at || exit
        printf '#include "list.h"\n#ifndef X\n#define X 0\n#endif\nint value = COUNT + X;\nint f(int a) { return a + %s; }\n' "${1:-1}" >foo.c
        printf '#include "list.h"\nint value = COUNT;\nstruct S { int a = %s; };\nint g() { return S().a; }\n' "${1:-1}" >foo.cc
        printf '#define COUNT 3\n' >list.h
        printf '\t.globl h\nh:\n\tmovl $%s, %%eax\n\tret\n' "${1:-1}" >asm.s
        printf '#define VALUE $%s\n\t.globl h\nh:\n\tmovl VALUE, %%eax\n\tret\n' "${1:-1}" >asm.S
        cp asm.S other.sx
        printf '%s\n' '--fatal-warnings' >words
        ln -s "$host" links/gcc
        ln -s "$host" links/clang
    )
}
# What a command printed, without what differs from call to call: names of temporary files, times, and addresses.
without_chance() { sed -E 's#/tmp/[-A-Za-z0-9._]+#TMP#g; s/[0-9]+(\.[0-9]+)?/N/g'; }
# Runs a command in the folder, and writes down how it ended, what it printed, and what it made.
word_run() {
    local to=$1
    shift
    (cd at && eval "$1") >"$to.out" 2>"$to.err" </dev/null
    echo "$?" >"$to.status"
    without_chance <"$to.out" >"$to.printed"
    without_chance <"$to.err" >>"$to.printed"
    (cd at && find . -type f | sort | while read -r file; do
        case $file in
            *.o | *.s | *.S | *.c | *.cc) sha256sum "$file" ;;
            *) without_chance <"$file" | sha256sum | sed "s|-\$|$file|" ;;
        esac
    done) >"$to.files"
}
# A command in which CC is the compiler, and CXX that of C++, with gulmaat before it where that is asked for.
word_line() {
    local cxx=$1++ line=$2
    [ "$1" != gcc ] || cxx=g++
    line=${line//CXX/$3$cxx}
    echo "${line//CC/$3$1}"
}
# A command does the same with gulmaat before it, twice, and after a change.
word_case() {
    local cc=$1 line=$2 value turn part
    for value in 1 2; do
        word_files $value
        word_run wanted "$(word_line "$cc" "$line" "")"
        for turn in first second; do
            word_files $value
            word_run got "$(word_line "$cc" "$line" "'$host' ")"
            for part in status printed files; do
                is "$cc: $line, $turn, $value: $part" cmp -s "wanted.$part" "got.$part"
            done
        done
    done
}
# And it is kept.
kept_case() {
    word_case "$@"
    word_files 2
    mark
    word_run got "$(word_line "$1" "$2" "'$host' ")"
    is "$1: $2: kept" since 1 0
}

words() {
    local cc=$1 line
    mkdir -p "$work/words-$cc"
    cd "$work/words-$cc" || return
    while read -r line; do word_case "$cc" "$line"; done <<'END'
CXX -c foo.c
CC -c foo.c -x c++
CC -c --language=c++ foo.c
CC --define-macro=X=1 -UX -c foo.c
CC -UX -DX=2 -c foo.c
CC -Werror -c asm.s
CC -c other.sx
CC -MD -MF - -c foo.c
CC -MD -MF /dev/stdout -c foo.c
CC -v -c foo.c
CC -### -c foo.c
CC -H -c foo.c
CC -H -E foo.c >&-
CC --version -c foo.c
CC -Wa,-adhln=x.lst -c foo.c
CC -Xassembler -a=x.lst -c foo.c
CC -Wa,--MD,x.d -c foo.c
CC -Wa,@words -c foo.c
CC -Wp,-DX=1,-P -c foo.c
CC -Wp,-DX -c foo.c -o
CC -g -Wa,-g -c asm.s
CC --save-temps=cwd -c foo.c
CC -save-temps=obj -c foo.c -o links/foo.o
CC -save-temps -c foo.c
CC -time -c foo.c
CC -emit-llvm -c foo.c
CC --write-dependencies -c foo.c
CC --output=x.o -c foo.c
CC --prefix=/nowhere/ -c foo.c
CC --dump=x -c foo.c
CC --no-line-commands -c foo.c
CC -g -frecord-command-line -c foo.c
CC -g -grecord-command-line -c foo.c
CC -g -frecord-gcc-switches -c foo.c
CC -g -grecord-gcc-switches -c foo.c
CC -g -fdebug-macro -c foo.c
CC -g -gembed-source -c foo.c
CC -g -gcodeview -c foo.c
CC -g3 -c foo.c
CC -fdiagnostics-format=sarif-file -c foo.c
CC -fmemory-profile-use=x -c foo.c
CC -frandomize-layout-seed-file=x -c foo.c
CC -fcallgraph-info=su -c foo.c
CC -gsplit-dwarf=single -g -c foo.c
CC -fverbose-asm -S foo.c
CC -S foo.c
CC -fsyntax-only -c foo.c
CC -dumpbase x -c foo.c
CC -aux-info x.X -c foo.c
CC -fdump-tree-original -c foo.c
CC -fopt-info-all=x.opt -O2 -c foo.c
CC -c foo.c foo.cc
CC -c nothere.c
CC -c foo.c -o nowhere/foo.o
CC -c foo.c -o /dev/null
CC -nothing-of-the-kind -c foo.c
CC -std=nothing -c foo.c
END
    while read -r line; do kept_case "$cc" "$line"; done <<'END'
CC -c foo.c
CC -c foo.cc
CC -c foo.cc -o foo
CC -c asm.s
CC -c asm.S
CC -x c++ -c foo.c
CC -Werror -O2 -x c -c /dev/null -o x.o
CC -DX=2 -UX -c foo.c
CC -MD -c foo.c
CC -MD -c foo.c -o 'd ir/f$o#o.o'
CC -MMD -MP -c foo.c -o links/foo.bar.o
CC -MD -MMD -c foo.c -o links/foo
CC -MD -MF x.d -c foo.c -o x.o
CC -MD -MT 'a b' -c foo.c -o x.o
CC -MD -MT -c -MF x.d -c foo.c -o x.o
CC -MMD -MQ 'a$b' -c foo.c -o links/x.o
PATH=$PWD/links:$PATH CC -O2 -g -Wall -Wextra -c foo.c
CC -O2 -fno-strict-aliasing -fvisibility=hidden -ffunction-sections -march=x86-64-v2 -msse4.2 -c foo.c
CC -g -fmacro-prefix-map=/a=/b -ffile-prefix-map=/c=/d -fstack-protector-strong -c foo.c
CC -std=gnu11 -pthread -pipe -fPIC -isystem share -I. -iquote d\ ir -include list.h -c foo.c
CC --param max-inline-insns-single=100 -O1 -c foo.c
CC -Wa,--noexecstack -Wl,-z,now -c foo.c
CC -Wp,-DX=3 -DX=2 -c foo.c
CC -Wp,-MD,x.d -Wp,-MT,d/x.o -c foo.c -o x.o
CC -MD -Wp,-MQ,d/x.o -c foo.c -o links/x.o
CC -O2 -Wp,-U_FORTIFY_SOURCE,-D_FORTIFY_SOURCE=3,-DX=4 -MD -c foo.c
CC -O2 -march=native -mtune=native -c foo.c
END
    cd "$work" || return
}

# A Clang that is called for a machine looks beside it for files of words by that name. With one nothing is kept.
configured_clang() {
    local real clang file
    mkdir -p tool/bin
    real=$(readlink -f "$(command -v clang)")
    clang=$PWD/tool/bin/x86_64-pc-linux-gnu-clang
    cp "$real" "$clang"
    ln -sfn "${real%/bin/*}/lib" tool/lib
    kept_case "$clang" "CC -O1 -c foo.c"
    for file in x86_64-pc-linux-gnu x86_64-pc-linux-gnu-clang; do
        echo "-DX=7 -g" >"tool/bin/$file.cfg"
        word_case "$clang" "CC -O1 -c foo.c"
        mark
        word_run got "$(word_line "$clang" "CC -O1 -c foo.c" "'$host' ")"
        is "$clang: $file.cfg: not kept" since 0 0
        rm "tool/bin/$file.cfg"
    done
    kept_case "$clang" "CC -O1 -c foo.c"
}

# Build systems find out which options a compiler knows by compiling what is always empty, each time to another object.
probe_words() {
    local cc=$1 language
    local words=(-Wa,--noexecstack -c /dev/null -o)
    mkdir -p "$work/probe-words-$cc"
    cd "$work/probe-words-$cc" || return
    for language in c c++ assembler assembler-with-cpp; do
        "$host" "$cc" -x "$language" "${words[@]}" one.o
        mark
        "$host" "$cc" -x "$language" "${words[@]}" two.o
        is "$cc -x $language: a probe to another object" since 1 0
        "$cc" -x "$language" "${words[@]}" wanted.o
        is "$cc -x $language: its object" cmp -s two.o wanted.o
    done
    # By words that a user allows an assembler may record where its input is.
    mkdir -p one two
    echo "int a;" | tee one/it.c two/it.c >/dev/null
    (cd one && GULMAAT_ALLOW_OPTIONS=-Wa,-I. "$host" "$cc" -Wa,-I. -c it.c)
    mark
    (cd two && GULMAAT_ALLOW_OPTIONS=-Wa,-I. "$host" "$cc" -Wa,-I. -c it.c)
    is "$cc: words that are allowed, in another folder" since 0 1
    cd "$work" || return
}

# What the compilers have alone.
own_words() {
    local line
    mkdir -p "$work/own-words"
    cd "$work/own-words" || return
    while read -r line; do word_case clang "$line"; done <<'END'
CC -save-stats -c foo.c
CC -save-stats=obj -c foo.c
CC -fproc-stat-report=x.csv -c foo.c
CC -fembed-bitcode-marker -c foo.c
CC -Xclang -fsyntax-only -c foo.c
CC -Xclang -mlink-bitcode-file -Xclang nothing.bc -c foo.c
CC -serialize-diagnostics x.dia -c foo.c
CC -MJ x.json -c foo.c
CC -emit-interface-stubs -c foo.c
END
    kept_case clang "CC -fsanitize=address -c foo.c"
    # What a kernel has in each call, and options that no help text lists.
    kept_case clang "CC -O2 -mretpoline-external-thunk -ftrivial-auto-var-init=zero -enable-trivial-auto-var-init-zero-knowing-it-will-be-removed-from-clang -c foo.c"
    kept_case clang "CC -ferror-limit=3 -fmacro-backtrace-limit=0 -fno-caret-diagnostics -fspell-checking-limit=2 -mspeculative-load-hardening -c foo.c"
    kept_case clang "CC -g -gmlt -gsimple-template-names -no-integrated-as -c foo.c"
    kept_case clang "CC -fsanitize-coverage=trace-pc-guard,pc-table,inline-8bit-counters -fdenormal-fp-math=preserve-sign --rtlib=libgcc -c foo.c"
    kept_case clang "CC -Qunused-arguments -mllvm -inline-threshold=100 -Xclang -disable-O0-optnone -c foo.c"
    kept_case gcc "CC -fsanitize=undefined,address -c foo.c"
    kept_case gcc "CC -Wa,-mtune=generic32,-march=generic64 -Xassembler -O2 -c foo.c"
    kept_case gcc "CC -gsplit-dwarf -g -c foo.c"
    configured_clang
    # A compiler that doesn't take the option for colours doesn't get it.
    printf 'for word; do case $word in -fdiagnostics-color*) echo "no such word" >&2; exit 1 ;; esac; done\nexec gcc "$@"\n' | stand_in old-gcc
    ln -sf old-gcc gcc
    kept_case "$PWD/gcc" "CC -Wall -c foo.c"
    # One for another processor has options of its own.
    mkdir -p other
    printf 'for word; do shift; case $word in -mthumb | -mcpu=*) ;; *) set -- "$@" "$word" ;; esac; done\nexec gcc "$@"\n' | stand_in other/gcc
    kept_case "$PWD/other/gcc" "CC -O2 -mcpu=cortex-m4 -mthumb -c foo.c"
    cd "$work" || return
}
