# shellcheck shell=bash disable=SC2086,SC2154
# Files of specs that words name, options that a GCC takes for granted, and a GCC by its name: a part of bin/test-builds, whose host, work and functions it uses.

# A command ends the same, prints the same and makes the same object with gulmaat before it; and it is so many hits by text, compiles and
# direct hits.
specs_case() {
    local name=$1 words=$2 status
    shift 2
    rm -f plain.o it.o
    $words -c it.c -o it.o >plain.printed 2>&1
    status=$?
    [ $status != 0 ] || mv it.o plain.o
    mark
    "$host" $words -c it.c -o it.o >it.printed 2>&1
    is "$name: status" [ $? = $status ]
    is "$name: messages" cmp -s plain.printed it.printed
    [ $status != 0 ] || is "$name: object" cmp -s plain.o it.o
    is "$name: calls" since "$@"
}

# Specs by their name and by their path, by either name of the option: what no text shows is in the object.
specs_of_gcc() {
    local front
    for front in "-fno-gcse -specs=" "-fno-ivopts --specs="; do
        printf '*cc1:\n+ -O1\n' >own.specs
        specs_case "gcc ${front}own.specs" "gcc ${front}own.specs" 0 1 0
        specs_case "gcc ${front}own.specs again" "gcc ${front}own.specs" 0 0 1
        printf '*cc1:\n+ -O0\n' >own.specs
        specs_case "gcc ${front}own.specs, changed" "gcc ${front}own.specs" 0 1 0
        printf '*cc1:\n+ -O1\n' >own.specs
        specs_case "gcc ${front}own.specs, as before" "gcc ${front}own.specs" 0 0 1
        specs_case "gcc $front and a path" "gcc ${front}$PWD/own.specs -MMD -MF it.d" 0 1 0
        printf '*cc1:\n+ -fno-builtin\n' >more.specs
        specs_case "gcc, two of $front" "gcc ${front}own.specs ${front#* }more.specs" 0 1 0
        printf '*cc1:\n+ -fno-inline\n' >more.specs
        specs_case "gcc, two of $front, one changed" "gcc ${front}own.specs ${front#* }more.specs" 0 1 0
        specs_case "gcc $front with none" "gcc ${front}none.specs" 0 0 0
    done
}

# Specs that read others are bound with these; those by which a program reads other files or variables are passed through.
specs_that_read() {
    local text
    local -x GULMAAT_TRIED=
    printf '%%include <more.specs>\n' >own.specs
    printf '*cc1:\n+ -O1\n' >more.specs
    specs_case "specs that include others" "gcc -specs=own.specs" 0 1 0
    printf '*cc1:\n+ -O0\n' >more.specs
    specs_case "specs that include others, changed" "gcc -specs=own.specs" 0 1 0
    specs_case "specs that include others, again" "gcc -specs=own.specs" 0 0 1
    echo '#define ONE 2' >one.h
    for text in '-include one.h' '-imacros one.h' '-fplugin=none' '%:getenv(GULMAAT_TRIED -O1)' '%:if-exists(one.h)' \
        -remap -fstack-usage -fdump-tree-optimized; do
        printf '*cc1:\n+ %s\n' "$text" >own.specs
        specs_case "specs with $text" "gcc -specs=own.specs" 0 0 0
    done
    printf '*cc1:\n+ -O1\n' >own.specs
    specs_case "Clang and specs" "clang --specs=own.specs" 0 0 0
}

# Specs that lie in a compiler's own folders.
specs_of_others() {
    local words
    command -v arm-none-eabi-gcc >/dev/null || return 0
    for words in "--specs=nano.specs" "-specs=picolibc.specs" "--specs=nano.specs --specs=nosys.specs"; do
        words="arm-none-eabi-gcc $words -mcpu=cortex-m4 -mthumb -g"
        $words -c it.c -o it.o 2>/dev/null || continue
        specs_case "$words" "$words" 0 1 0
        specs_case "$words, again" "$words" 0 0 1
    done
}

# A header that comes into a folder of which specs alone say that the compiler looks there is found as by the compiler.
specs_of_headers() {
    local words="gcc -specs=own.specs -idirafter late"
    mkdir -p early late
    printf '*cpp:\n+ -isystem early\n' >own.specs
    echo '#define TWO 2' >late/two.h
    printf '#include <two.h>\nint two = TWO;\n' >it.c
    settle
    specs_case "specs with a folder" "$words" 0 1 0
    specs_case "specs with a folder, again" "$words" 0 0 1
    echo '#define TWO 3' >early/two.h
    settle
    specs_case "specs with a folder, and a header there" "$words" 0 1 0
    rm early/two.h
    specs_case "specs with a folder, and no header there" "$words" 0 0 1
}

# A GCC whose name ends with the kind of its threads, behind a link, as Debian's compilers for Windows.
gcc_by_threads() {
    local kind one=5
    mkdir -p fake
    for kind in win32 posix; do
        one=$((one + 1))
        printf 'exec %s "$@"\n' "$(command -v gcc)" | stand_in "fake/x86_64-w64-mingw32-gcc-$kind"
        ln -sf "x86_64-w64-mingw32-gcc-$kind" fake/x86_64-w64-mingw32-gcc
        specs_case "a GCC of $kind" "$PWD/fake/x86_64-w64-mingw32-gcc -DONE=$one" 0 1 0
        specs_case "a GCC of $kind, again" "$PWD/fake/x86_64-w64-mingw32-gcc -DONE=$one" 0 0 1
    done
}

specs() {
    mkdir -p "$work/specs"
    cd "$work/specs" || return
    printf '#ifndef ONE\n#define ONE 1\n#endif\nstatic int g(int a) { return a * 3; }\nint f(int a) { return g(a) + ONE; }\n' >it.c
    specs_of_gcc
    specs_that_read
    specs_of_others
    # A GCC records its options unless it is told not to. A Clang records the command, with the word for colours that gulmaat adds.
    settle
    specs_case "gcc -grecord-gcc-switches" "gcc -g -grecord-gcc-switches" 0 1 0
    specs_case "gcc -grecord-gcc-switches again" "gcc -g -grecord-gcc-switches" 0 0 1
    specs_case "clang -grecord-gcc-switches" "clang -g -grecord-gcc-switches" 0 0 0
    gcc_by_threads
    specs_of_headers
    cd "$top" || exit
}
