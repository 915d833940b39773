# shellcheck shell=bash disable=SC2086,SC2154
# What a text doesn't say of its sources, and dependency files: parts of bin/test-builds, whose host, work and functions it uses.

# The sources of this part.
line_files() {
    printf '#define SUM(a, b) ((a) + \\\n    (b))\nstatic inline int half(int x) { /* c */ return x / 2; }\n' >lines.h
    cat >lines.c <<'END'
#include "lines.h"
int g(int);
int f(int a, int b) {
  int r = 0; /* one */ r += a;
  switch (a) {
  case 1: r = 2;
    /* fall through */
  case 2: r += SUM(a,
       b); g(r);
  }
  if (a)
    r++;
  int unused;
  return half(r) / b;
}
END
}
# The call does the same twice as the compiler alone: status, messages, object and dependency file. So many of the two are hits.
line_call() {
    local name=$1 wanted=$2 cc=$3 turn
    shift 3
    rm -f it.o it.d
    $cc "$@" -c lines.c -o it.o 2>plain.err
    local status=$?
    [ ! -f it.o ] || mv it.o plain.o
    [ ! -f it.d ] || mv it.d plain.d
    mark
    for turn in first second; do
        rm -f it.o it.d
        "$host" $cc "$@" -c lines.c -o it.o 2>ours.err
        is "$name: $cc $*: status, $turn" [ $? = $status ]
        is "$name: $cc $*: messages, $turn" cmp -s plain.err ours.err
        is "$name: $cc $*: object, $turn" cmp -s plain.o it.o
        [ ! -f plain.d ] || is "$name: $cc $*: dependency file, $turn" cmp -s plain.d it.d
    done
    rm -f plain.d
    is "$name: $cc $*: calls" since $wanted
}
# Each of these words, after a change by which so many are compiled anew: without debug information and warnings, and with them.
line_calls() {
    local cc=$1 name=$2 bare=$3 others=$4 quiet=-O1
    # Clang has warnings that hang on lines, unless all are off.
    [ "$cc" = gcc ] || {
        line_call "$name" "$others" "$cc" -O1
        quiet="-O1 -w"
    }
    line_call "$name" "$bare" "$cc" $quiet
    line_call "$name" "$others" "$cc" -g
    line_call "$name" "$others" "$cc" -Wall -Wextra
    line_call "$name" "$others" "$cc" -fsanitize=undefined
    line_call "$name" "$others" "$cc" -g -O2 -Wall -MD
}

# A call on a source, and then on another one with the same text: each time it does the same as the compiler alone.
line_change() {
    local name=$1 before=$2 after=$3 contents status
    shift 3
    for contents in "$before" "$after"; do
        printf '%b' "$contents" >it.c
        rm -f it.o plain.o
        "$@" -c it.c -o it.o 2>plain.err
        status=$?
        [ ! -f it.o ] || mv it.o plain.o
        "$host" "$@" -c it.c -o it.o 2>ours.err
        is "$name: $*: status" [ $? = $status ]
        is "$name: $*: messages" cmp -s plain.err ours.err
        [ ! -f plain.o ] || is "$name: $*: object" cmp -s plain.o it.o
    done
}

# What hangs on how a source was written though no word asks for lines: pragmas, and with Clang macros, comments and columns.
line_changes() {
    local cc=$1 body='int f(int x, int a, int b) {\n if (x)\n' pragma='#pragma GCC diagnostic error "-Wmisleading-indentation"\n'
    line_change "a warning by a pragma" "$pragma$body a = 1;\n        b = 2;\n return a + b;\n}\n" \
        "$pragma$body\ta = 1;\n        b = 2;\n return a + b;\n}\n" "$cc"
    [ "$cc" != gcc ] || {
        body='#include <stdio.h>\nstatic int g(int x) { return x; }\nint f(int x) { int z; if (x = 1) printf("%s", x); '
        line_change "paths of the analyzer" "$body return g(x) + z; }\n" "$body return g(z) + z; }\n" "$cc" -fanalyzer
        return
    }
    line_change "a macro" '#define EQ x == 1\nint f(int x) {\n EQ;\n return x;\n}\n' \
        '#define XX x == 1\nint f(int x) {\n x == 1;\n return x;\n}\n' "$cc"
    pragma='#pragma clang diagnostic error "-Wdocumentation"\n'
    line_change "a comment" '/** a */\nint f(int x);\n' '/** \\param y b */\nint f(int x);\n' "$cc" -Weverything -Werror
    line_change "a comment" '/** a */\nint f(int x);\n' '/** \\param y b */\nint f(int x);\n' "$cc" -Werror=documentation
    line_change "a comment" "$pragma/** a */\nint f(int x);\n" "$pragma/** \\\\param y b */\nint f(int x);\n" "$cc"
    body='template <class T> const char *name(T) { return __PRETTY_FUNCTION__; }\n'
    line_change "a column" "${body}const char *f() { /*a*/ auto l = [] {}; return name(l); }\n" \
        "${body}const char *f() { /*abc*/ auto l = [] {}; return name(l); }\n" "$cc" -x c++ -w -O2
    body='int g(const char *, const char *, int = __builtin_LINE());\n#define LOG(x, y) g(x, y)\nvoid f() {\n'
    line_change "a line" "$body LOG(\"a\",\n \"b\");\n}\n" "$body LOG(\"a\", \"b\");\n\n}\n" "$cc" -x c++ -w -O2
    line_change "a place of bitcode" '/*a*/\nint f(int x) {\n __asm__("nop");\n return x;\n}\n' \
        '/*abc*/\nint f(int x) {\n __asm__("nop");\n return x;\n}\n' "$cc" -flto
}

lines() {
    local cc=$1 dir=$work/lines-$1
    mkdir -p "$dir"
    cd "$dir" || return
    line_files
    line_calls "$cc" "new" "1 1" "1 1"
    sed -i 's#/\* one \*/#/* one and two */#' lines.c
    line_calls "$cc" "a comment inside of a line" "2 0" "1 1"
    sed -i 's#^    /\* fall through \*/#    /* and goes on */#' lines.c
    line_calls "$cc" "no comment that a case falls through" "2 0" "1 1"
    sed -i 's#^       b); g#          b); g#' lines.c
    # The text of Clang has such an argument where the macro is.
    line_calls "$cc" "an argument of a macro is moved" "$([ "$cc" = gcc ] && echo 1 1 || echo 2 0)" "1 1"
    sed -i 's#/\* c \*/#/* c c */#' lines.h
    line_calls "$cc" "a comment inside of a header's line" "2 0" "1 1"
    sed -i 's#^    r++;#  r++;#' lines.c
    line_calls "$cc" "another indentation" "1 1" "1 1"
    # A comment's own line between others, and a macro that isn't used, leave the object of GCC as it is where it prints nothing.
    sed -i '/int unused/d; s#^  return#  /* a line of its own */\n  return#' lines.c
    line_call "a comment's own line" "1 1" "$cc" -g
    sed -i 's#a line of its own#another line of its own#' lines.c
    [ "$cc" != gcc ] || line_call "another comment's own line" "2 0" "$cc" -g
    sed -i 's#(b))#     (b))#' lines.h
    [ "$cc" != gcc ] || line_call "a macro's own lines" "2 0" "$cc" -g
    # Where a directive gives lines other numbers, all of the file counts.
    printf '#line 7 "other.y"\nint h(int a) { return a; }\n/* c */\n' >>lines.c
    line_call "lines of another file" "1 1" "$cc" -g
    sed -i 's#/\* c \*/$#/* c c */#' lines.c
    line_call "lines of another file, a comment" "1 1" "$cc" -g
    # So it does where such a directive comes after a comment.
    printf '/* a */ #line 7\nint h(int a) { return a; }\n' >numbered.c
    "$host" "$cc" -g -c numbered.c -o it.o
    sed -i 's#return a#return /* b */ a#' numbered.c
    "$host" "$cc" -g -c numbered.c -o it.o
    "$cc" -g -c numbered.c -o plain.o
    is "$cc: lines of other numbers after a comment" cmp -s plain.o it.o
    # A user may say that lines don't count.
    sed -i 's#/\* one and two \*/#/* three */#' lines.c
    mark
    GULMAAT_AUDIT=0 GULMAAT_SLOPPINESS=lines "$host" "$cc" -g -c lines.c -o it.o
    sed -i 's#/\* three \*/#/* four */#' lines.c
    GULMAAT_AUDIT=0 GULMAAT_SLOPPINESS=lines "$host" "$cc" -g -c lines.c -o it.o
    is "$cc: lines don't count" since 1 1
    line_changes "$cc"
    cd "$work" || return
}

# A call with these arguments does the same twice as the compiler alone, and writes the same files. So many of the two are hits.
dependency_call() {
    local name=$1 wanted=$2 cc=$3 turn
    shift 3
    rm -rf made plain-made
    mkdir made
    (cd made && $cc "$@" 2>/dev/null)
    mv made plain-made
    mark
    for turn in first second; do
        rm -rf made
        mkdir made
        (cd made && "$host" $cc "$@" 2>/dev/null)
        is "$name: $cc $*: files, $turn" diff -r plain-made made
    done
    is "$name: $cc $*: calls" since $wanted
}

dependencies() {
    local cc=$1 dir=$work/dependencies-$1 words
    mkdir -p "$dir/sub dir"
    cd "$dir" || return
    printf '#include <stddef.h>\n#include "one.h"\nint a = ONE;\n' >it.c
    printf '#define ONE 1\n#if __has_include("maybe.h")\n#endif\n' >one.h
    cp it.c one.h "sub dir"
    while read -r words; do
        dependency_call "new" "1 1" "$cc" $words
    done <<'END'
-MD -c ../it.c
-MMD -c ../it.c -o out.o
-MD -MP -c ../it.c -o out.x.o
-MMD -MF other.d -c ../it.c -o out.y.o
-MD -MT it.o -MF other.d -c ../it.c -o other.o
-MD -MT t$x -MT two -MF other.d -c ../it.c
-MD -MQ t$x#y -c ../it.c -o named.o
-MFother.d -MMD -MTtarget -c ../it.c
-Wp,-MD,other.d -c ../it.c -o wp.o
-Wp,-MMD,.wp.o.d -c ../it.c -o wp.o
-MD -g -c ../it.c -o d$x#e.o
-MD -MF /dev/null -c ../it.c -o null.o
END
    # Which files a list has: one that was only asked for, a new one, another target.
    dependency_call "the same" "2 0" "$cc" -MD -MF it.d -MT it.o -c ../it.c -o other.o
    touch maybe.h
    dependency_call "a header that is only asked for" "$([ "$cc" = gcc ] && echo 2 0 || echo 1 1)" "$cc" -MD -c ../it.c
    rm maybe.h
    dependency_call "no header that is only asked for" "2 0" "$cc" -MD -c ../it.c
    printf '#define ONE 1\n#include "empty.h"\n' >one.h
    touch empty.h
    dependency_call "an empty header" "1 1" "$cc" -MD -c ../it.c
    # A folder that isn't there, and a file that can't be written: the compiler says so.
    mark
    $cc -MD -MF nowhere/it.d -c it.c -o plain.o 2>plain.err
    local status=$?
    "$host" "$cc" -MD -MF nowhere/it.d -c it.c -o it.o 2>ours.err
    is "$cc: no folder for the dependency file: status" [ $? = $status ]
    is "$cc: no folder for the dependency file: messages" cmp -s plain.err ours.err
    is "$cc: no folder for the dependency file: calls" since 0 0
    # On standard output.
    $cc -MD -MF - -MT it -c it.c -o plain.o >plain.out
    "$host" "$cc" -MD -MF - -MT it -c it.c -o it.o >ours.out
    is "$cc: -MF -" cmp -s plain.out ours.out
    is "$cc: -MF -: calls" since 0 0
    cd "$work" || return
}
