# shellcheck shell=bash disable=SC2016,SC2154
# The host's calls beside the compiler alone: what it hands on, itself and other hosts on the path, and what fails: a part of bin/test-builds,
# whose host, work, built and functions it uses.

# What is put before a command, as a shell that sets a limit; and which lines of messages aren't compared, as those with a process's number.
before=()
not_compared=
# Runs a command, for a minute at most.
run_before() { timeout 60 "${before[@]}" "$@"; }
# A call by the compiler alone, and so many by gulmaat, each with the same status, output, messages and object it.o.
as_alone() {
    local name=$1 turns=$2 turn status
    shift 2
    rm -f it.o
    run_before "$@" >alone.out 2>alone.err
    status=$?
    rm -f alone.o
    [ ! -e it.o ] || cp it.o alone.o
    for turn in $(seq "$turns"); do
        rm -f it.o
        run_before "$host" "$@" >ours.out 2>ours.err
        is "$name, $turn: status as $status" [ $? = "$status" ]
        is "$name, $turn: output" cmp alone.out ours.out
        if [ -z "$not_compared" ]; then
            is "$name, $turn: messages" cmp alone.err ours.err
        else
            is "$name, $turn: messages" cmp <(grep -aEv "$not_compared" alone.err) <(grep -aEv "$not_compared" ours.err)
        fi
        if [ -e alone.o ]; then is "$name, $turn: object" cmp alone.o it.o; else is "$name, $turn: no object" [ ! -e it.o ]; fi
    done
}
# Makes a compiler fake/NAME that runs the script on standard input where it compiles, and then the compiler of that name. Clears the cache, since
# the one before it was the same file.
stand_in_compiler() {
    mkdir -p fake
    "$host" --clear
    {
        printf 'case " $* " in *" -E "* | *-print-*) ;; *)\n'
        cat
        printf ';; esac\nexec %s "$@"\n' "$(command -v "$1")"
    } | stand_in "fake/$1"
}
# The same, but it runs the script in each call.
stand_in_always() {
    mkdir -p fake
    "$host" --clear
    { cat; printf 'exec %s "$@"\n' "$(command -v "$1")"; } | stand_in "fake/$1"
}

# ---- What is handed on.

# Makes a compiler fake/NAME that writes down, where it compiles, which files it has open and what these are, and which signals it ignores and has
# blocked.
stand_in_reporter() {
    mkdir -p fake
    cat >reporter.c <<'END'
#include <dirent.h>
#include <signal.h>
#include <stdio.h>
#include <stdlib.h>
#include <string.h>
#include <unistd.h>
int main(int count, char **words) {
    int compiles = 1;
    for (int i = 1; i < count; i++) compiles &= strcmp(words[i], "-E") && strncmp(words[i], "-print-", 7);
    if (compiles) {
        static char lines[100][300];
        char path[300], to[200];
        sigset_t blocked;
        DIR *open = opendir("/proc/self/fd");
        for (struct dirent *file; (file = readdir(open));) {
            int number = atoi(file->d_name);
            if (file->d_name[0] == '.' || number == dirfd(open) || number >= 100) continue;
            snprintf(path, sizeof path, "/proc/self/fd/%d", number);
            ssize_t size = readlink(path, to, sizeof to - 1);
            to[size < 0 ? 0 : size] = 0;
            snprintf(lines[number], sizeof lines[number], "%d %s\n", number, number > 2 ? to : "");
        }
        closedir(open);
        FILE *state = fopen("state", "w");
        for (int i = 0; i < 100; i++) fputs(lines[i], state);
        sigprocmask(SIG_BLOCK, NULL, &blocked);
        for (int i = 1; i < NSIG; i++) {
            struct sigaction action;
            if (sigaction(i, NULL, &action)) continue;
            if (sigismember(&blocked, i) == 1) fprintf(state, "%d is blocked\n", i);
            if (action.sa_handler == SIG_IGN) fprintf(state, "%d is ignored\n", i);
        }
        fclose(state);
    }
    words[0] = COMPILER;
    execv(COMPILER, words);
    return 127;
}
END
    gcc -DCOMPILER="\"$(command -v "$1")\"" reporter.c -o "fake/$1"
}

# The compiler has the same files and signals alone, in a compile and where it is passed through.
same_state() {
    local name=$1 cc=$2 words
    for words in "-c it.c -o it.o" "-c it.c -o it.o -fverbose-asm"; do
        # shellcheck disable=SC2086
        run_before "$PWD/fake/$cc" $words
        mv state wanted
        "$host" --clear
        # shellcheck disable=SC2086
        run_before "$host" "$PWD/fake/$cc" $words
        is "$name: $words" diff wanted state
    done
}

host_hands_on() {
    local cc=$1 style
    echo 'int it;' >it.c
    stand_in_reporter "$cc"
    rm -f fifo
    mkfifo fifo
    same_state "$cc: open files" "$cc" 3<it.c 4>number 7<>fifo
    is "$cc: open files: there are some" [ "$(grep -c '^[347] ' state)" = 3 ]
    before=(sh -c 'exec "$@" <&-' -)
    same_state "$cc: no standard input" "$cc"
    before=(env '--ignore-signal=PIPE,XFSZ,CHLD,HUP' '--block-signal=USR1,TERM')
    same_state "$cc: signals" "$cc"
    before=()
    # Make's job server, by two descriptors and by a name.
    printf 'a.o:\n\t+$(CC) -c it.c -o a.o\nb.o:\n\t$(CC) -c it.c -o b.o\n' >Makefile
    for style in b a; do
        make -s -j 2 CC="$PWD/fake/$cc" $style.o
        sed 's/pipe:.*/pipe/' state >wanted
        rm -f $style.o
        "$host" --clear
        make -s -j 2 CC="$host $PWD/fake/$cc" $style.o
        is "$cc: job server, $style" diff wanted <(sed 's/pipe:.*/pipe/' state)
    done
    is "$cc: job server: there is one" [ "$(grep -c pipe wanted)" -ge 2 ]
    MAKEFLAGS="-j2 --jobserver-auth=fifo:$PWD/fifo" same_state "$cc: job server by a name" "$cc" 7<>fifo
}

# ---- Itself, and other files in the place of compilers.

# A call by a name that is searched for in these folders first: it ends as the compiler does.
ends_on_path() {
    local name=$1 cc=$2 folders=$3 status turn
    for turn in 1 2; do
        rm -f it.o
        PATH=$folders:$PATH timeout 60 "$cc" -Wall -c it.c -o it.o 2>ours.err
        status=$?
        is "$name, $turn: status $status" [ "$status" = 0 ]
        is "$name, $turn: object" cmp alone.o it.o
        if [ -z "$not_compared" ]; then
            is "$name, $turn: messages" cmp alone.err ours.err
        else
            is "$name, $turn: messages" cmp <(grep -aEv "$not_compared" alone.err) <(grep -aEv "$not_compared" ours.err)
        fi
    done
}

host_itself() {
    local cc=$1 links=$PWD/links folder
    local -x GULMAAT_BIN=${GULMAAT_BIN:-$built/gulmaat}
    rm -rf links copy other mask script
    mkdir -p links copy other mask script
    printf 'int f(void) { int x; return x; }\n' >it.c
    "$cc" -Wall -c it.c -o alone.o 2>alone.err
    ln -s "$host" "links/$cc"
    mark
    ends_on_path "$cc: a link" "$cc" "$links"
    is "$cc: a link: kept" since 1 1
    PATH=$links timeout 60 "links/$cc" -c it.c -o it.o 2>ours.err
    is "$cc: a link and no compiler" [ $? = 127 ]
    # A copy, and one of another build.
    cp "$host" "copy/$cc"
    cp "$host" "other/$cc"
    echo >>"other/$cc"
    ends_on_path "$cc: two hosts" "$cc" "$PWD/copy:$links"
    ends_on_path "$cc: two hosts, the link first" "$cc" "$links:$PWD/copy"
    ends_on_path "$cc: two builds" "$cc" "$PWD/other:$links"
    ends_on_path "$cc: two builds, the link first" "$cc" "$links:$PWD/other:$PWD/copy"
    for folder in links copy other; do as_alone "$cc: before $folder" 2 "$PWD/$folder/$cc" -Wall -c it.c -o it.o; done
    # A host that is named twice, as by CC and by a launcher of CMake.
    mark
    as_alone "$cc: before itself" 2 "$host" "$cc" -Wall -O1 -c it.c -o it.o
    is "$cc: before itself: kept" since 2 1
    "$cc" -Wall -c it.c -o alone.o 2>alone.err
    # A script of that name that calls the host.
    printf '#!/bin/sh\nexec %s %s "$@"\n' "$host" "$cc" >"script/$cc"
    chmod +x "script/$cc"
    ends_on_path "$cc: a script that calls it" "$cc" "$PWD/script"
    ends_on_path "$cc: a link, and a script that calls it" "$cc" "$links:$PWD/script"
    printf '#!/bin/sh\n%s %s "$@"\n' "$host" "$PWD/script/$cc" >"script/$cc"
    ends_on_path "$cc: a script that calls it by its path" "$cc" "$PWD/script"
    # A compiler that calls the host in its turn.
    mkdir -p fake
    printf 'exec %s %s "$@"\n' "$host" "$cc" | stand_in "fake/$cc"
    as_alone "$cc: a compiler that calls it" 2 "$PWD/fake/$cc" -Wall -c it.c -o it.o
    ends_on_path "$cc: a link, and a compiler that calls it" "$cc" "$links:$PWD/fake"
    if [ "$cc" = gcc ]; then as_alone "$cc: it runs the compiler's parts" 2 gcc -wrapper "$host" -Wall -c it.c -o it.o; fi
    # ccache after it on the path, and before it.
    ln -s "$(command -v ccache)" "mask/$cc"
    CCACHE_DIR=$PWD/ccache ends_on_path "$cc: ccache after it" "$cc" "$links:$PWD/mask"
    CCACHE_DIR=$PWD/ccache ends_on_path "$cc: ccache before it" "$cc" "$PWD/mask:$links"
    # Without /proc, which a sanitizer needs.
    if [ "$(id -u)" != 0 ]; then
        echo "  left out: $cc without /proc: only root takes it away" >&2
    elif [ -z "${sanitized:-}" ]; then
        before=(unshare -m sh -c 'mount -t tmpfs none /proc && exec "$@"' -)
        as_alone "$cc: no /proc" 2 "$cc" -Wall -c it.c -o it.o
        as_alone "$cc: no /proc, by a link" 1 "$links/$cc" -Wall -c it.c -o it.o
        before=()
    fi
}

# ---- What fails.

host_fails() {
    local cc=$1 dir=$PWD number
    printf 'char big[100000] = {1};\nint f(void) { int x; return x; }\n' >it.c
    as_alone "$cc: nothing fails" 2 "$cc" -Wall -c it.c -o it.o
    # The report of a crash has addresses in it, and the shell prints it with a number; Clang's shows the program's option for colours.
    not_compared='File size limit|^ ?#|Program arguments|^clang: |/tmp/'
    for number in 0 1 50 10000; do
        "$host" --clear
        before=(bash -c "ulimit -f $number; exec \"\$@\"" -)
        as_alone "$cc: files of $number blocks" 2 "$cc" -Wall -c it.c -o it.o
    done
    not_compared=
    for number in 4 5 6 7 8 10 12 14 20; do
        before=(bash -c "ulimit -n $number; exec \"\$@\"" -)
        as_alone "$cc: $number files" 1 "$cc" -Wall -c it.c -o it.o
    done
    before=()
    # Outputs on a full disk.
    mkdir -p small
    if [ "$(id -u)" != 0 ]; then
        echo "  left out: $cc on a full disk: only root mounts one" >&2
    else
        is "$cc: a small disk is there" mount -t tmpfs -o size=400k none small
        cd small || return
        cp ../it.c .
        as_alone "$cc: a small disk" 2 "$cc" -Wall -c it.c -o it.o
        cat /dev/zero >full 2>/dev/null
        rm -f it.o alone.o
        as_alone "$cc: a full disk" 2 "$cc" -Wall -c it.c -o it.o
        cd "$dir" || return
        umount small
    fi
    # Messages that nobody reads, or that go to a full disk.
    for number in 1 2; do
        (sleep 0.2; "$cc" -Wall -c it.c -o it.o) 2>&1 | :
        echo "${PIPESTATUS[0]}" >alone.status
        (sleep 0.2; "$host" "$cc" -Wall -c it.c -o it.o) 2>&1 | :
        is "$cc: nobody reads, $number" [ "${PIPESTATUS[0]}" = "$(cat alone.status)" ]
        { "$cc" -Wall -c it.c -o it.o 2>/dev/full; } 2>/dev/null
        echo $? >alone.status
        { "$host" "$cc" -Wall -c it.c -o it.o 2>/dev/full; } 2>/dev/null
        is "$cc: no room for messages, $number" [ $? = "$(cat alone.status)" ]
    done
    # Messages that are longer than a file may be, in a pipe.
    stand_in_compiler "$cc" <<<'seq 3000 >&2'
    echo 'int it;' >short.c
    for number in 1 2; do
        rm -f it.o
        (ulimit -f 4; timeout 60 "$host" "$dir/fake/$cc" -c short.c -o it.o) 2>&1 | cat >shown
        is "$cc: long messages, $number: status" [ "${PIPESTATUS[0]}" = 0 ]
        is "$cc: long messages, $number" cmp <(seq 3000) shown
        is "$cc: long messages, $number: object" [ -s it.o ]
    done
    # Little room for the host's stack.
    stand_in_compiler "$cc" <<<'ulimit -S -s 8192; seq 30000 >&2'
    for number in 1 2 3; do
        rm -f it.o
        (ulimit -S -s 128; timeout 60 "$host" "$dir/fake/$cc" -c short.c -o it.o) 2>shown
        is "$cc: a small stack, $number: status" [ $? = 0 ]
        is "$cc: a small stack, $number: messages" cmp <(seq 30000) shown
        is "$cc: a small stack, $number: object" [ -s it.o ]
    done
    # The cache directory is removed meanwhile.
    stand_in_compiler "$cc" <<<'rm -rf "$GULMAAT_DIR"'
    GULMAAT_DIR=$dir/gone as_alone "$cc: the folder goes" 2 "$dir/fake/$cc" -Wall -c it.c -o it.o
    chmod 000 it.c
    as_alone "$cc: a source that can't be read" 2 "$cc" -Wall -c it.c -o it.o
    chmod 644 it.c
}

# ---- The end of either.

# How a shell that a host started finds that host's program.
find_program='pgrep -P $PPID -x gulmaat'

host_deaths() {
    local cc=$1 step program
    printf 'int f(void) { int x; return x; }\n' >it.c
    "$cc" -Wall -c it.c -o alone.o 2>alone.err
    for step in " -E " "-print-" " -c "; do
        printf 'case " $* " in *" -E "*) step=" -E " ;; *-print-*) step=-print- ;; *) step=" -c " ;; esac
            if [ "$step" = "%s" ]; then kill -9 $(%s) 2>/dev/null; fi\n' "$step" "$find_program" | stand_in_always "$cc"
        rm -f it.o
        timeout 60 "$host" "$PWD/fake/$cc" -Wall -c it.c -o it.o 2>ours.err
        is "$cc: no program from $step on: status" [ $? = 0 ]
        is "$cc: no program from $step on: object" cmp alone.o it.o
        is "$cc: no program from $step on: messages" cmp alone.err ours.err
    done
    stand_in_compiler "$cc" <<<"$find_program"' >program; kill -9 $PPID; exit 1'
    { timeout 60 "$host" "$PWD/fake/$cc" -Wall -c it.c -o it.o 2>ours.err; } 2>/dev/null
    is "$cc: no host" [ $? = 137 ]
    program=$(cat program)
    for step in $(seq 100); do
        [ -e "/proc/$program" ] || break
        sleep 0.1
    done
    is "$cc: no host, and no program" [ -n "$program" -a ! -e "/proc/$program" ]
    # A compiler ends with its host: it would make an object that nobody waits for, over that of another call.
    stand_in_compiler "$cc" <<<'echo $$ >compiler; kill -9 $PPID; sleep 5; echo late >late'
    rm -f compiler late
    { timeout 60 "$host" "$PWD/fake/$cc" -Wall -c it.c -o it.o 2>ours.err; } 2>/dev/null
    for step in $(seq 20); do
        [ -s compiler ] && [ -e "/proc/$(cat compiler)" ] || break
        sleep 0.1
    done
    is "$cc: no host, and no compiler" [ -s compiler -a ! -e "/proc/$(cat compiler)" -a ! -e late ]
    # While a compiler runs there is one other process of the host's, and no zombie, also where the compiler took the host's place.
    stand_in_compiler "$cc" <<<'ps -o pid=,stat=,comm= --ppid $PPID >beside; ps -o pid=,stat=,comm= --ppid $$ >below'
    rm -f it.o
    "$host" "$PWD/fake/$cc" -Wall -c it.c -o it.o 2>ours.err
    is "$cc: the program and the compiler" [ "$(wc -l <beside)" = 2 ]
    is "$cc: no zombie" [ "$(grep -c ' Z' beside)" = 0 ]
    "$host" "$PWD/fake/$cc" -Wall -c it.c -o it.o -fverbose-asm 2>ours.err
    is "$cc: no zombie after a pass" [ "$(grep -c . below) $(grep -c ' Z' below)" = "1 0" ]
    # A signal while a text is printed.
    stand_in_always "$cc" <<<'case " $* " in *" -E "*) echo $$ >text; exec sleep 300 ;; esac'
    rm -f text it.o
    timeout 60 "$host" "$PWD/fake/$cc" -Wall -c it.c -o it.o 2>ours.err &
    for step in $(seq 100); do
        [ ! -s text ] || break
        sleep 0.1
    done
    kill "$(pgrep -P $!)"
    wait $!
    is "$cc: a signal while a text is printed" [ $? = 143 ]
    is "$cc: a signal while a text is printed: it ended" [ ! -e "/proc/$(cat text)" ]
    is "$cc: a signal while a text is printed: no object" [ ! -e it.o ]
    # A program whose question is too long to be read: it still writes where the host waits for its end.
    printf 'printf "\\000\\000\\000\\020\\000\\000\\000\\000"; exec head -c 1000000 /dev/zero 2>/dev/null\n' | stand_in talkative
    GULMAAT_BIN=$PWD/talkative as_alone "$cc: a question that is too long" 1 "$cc" -Wall -c it.c -o it.o
    # A program that never ends.
    printf 'echo $$ >program; exec sleep 300\n' | stand_in never
    GULMAAT_BIN=$PWD/never timeout 60 "$host" "$cc" -Wall -c it.c -o it.o 2>ours.err &
    rm -f program
    for step in $(seq 100); do
        [ ! -s program ] || break
        sleep 0.1
    done
    kill "$(pgrep -P $!)"
    wait $!
    is "$cc: a program that never ends" [ $? = 143 ]
    kill -9 "$(cat program)"
}

# A hit starts one process, the program.
host_is_light() {
    local cc=$1 turn
    if [ -n "${sanitized:-}" ] || ! command -v strace >/dev/null; then return; fi
    printf 'int light;\n' >light.c
    for turn in 1 2 3; do
        sleep 0.1
        mark
        strace -f -qq -e trace=clone,clone3,fork,vfork,execve -o calls "$host" "$cc" -c light.c -o light.o
    done
    is "$cc: a direct hit" since 0 0 1
    is "$cc: a direct hit: one process" [ "$(grep -cE ' (clone|clone3|fork|vfork)\(' calls)" = 1 ]
    is "$cc: a direct hit: two programs" [ "$(grep -c ' execve(' calls)" = 2 ]
}
