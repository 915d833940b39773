# shellcheck shell=bash disable=SC2086,SC2154
# Single calls of rustc: a part of bin/test-builds, whose host, work and functions it uses.

# The rustc that rustup's proxy runs, if there is one.
real_rustc() { echo "$(rustc --print sysroot)/bin/rustc"; }

# Runs rustc with these arguments, and writes down how it ended: status, both streams, and digests of all files in the folder of outputs, but for
# folders to which rustc gives a random name.
rustc_state() {
    local name=$1 folder=$2
    shift 2
    "$@" >"$name.printed" 2>"$name.errors"
    echo $? >"$name.state"
    (cd "$folder" && find . -type f -not -path './rmeta*' -not -path './rustc*' | sort | xargs -r sha256sum) >>"$name.state"
}

# Whether a call ends as by rustc alone, twice: what it printed, its status, and what it made. For the arguments the folder of outputs is `out`.
like_rustc() {
    local name=$1 turn
    shift
    rm -rf out && mkdir out
    rustc_state plain out "$rustc" "$@"
    for turn in first second; do
        rm -rf out && mkdir out
        rustc_state ours out "$host" "$rustc" "$@"
        is "rustc $name, $turn: status and files" cmp -s plain.state ours.state
        is "rustc $name, $turn: output" cmp -s plain.printed ours.printed
        is "rustc $name, $turn: messages" cmp -s plain.errors ours.errors
    done
}

# Likewise, and whether the first call was kept and the second one was a hit, or both were passed through.
kept_by_rustc() { mark; like_rustc "$@"; is "rustc $1: kept" since 1 1; }
passed_by_rustc() { mark; like_rustc "$@"; is "rustc $1: passed through" since 0 0; }

# A call that is the same as before but for one thing: it is compiled again, or not, and ends as by rustc alone.
changed_rustc() {
    local name=$1 hits=$2 compiles=$3
    shift 3
    rm -rf out && mkdir out
    rustc_state plain out "$rustc" "$@"
    rm -rf out && mkdir out
    mark
    rustc_state ours out "$host" "$rustc" "$@"
    is "rustc, $name" since $hits $compiles
    is "rustc, $name: status and files" cmp -s plain.state ours.state
    is "rustc, $name: messages" cmp -s plain.errors ours.errors
}

rustc_words() {
    local json="--error-format=json --json=diagnostic-rendered-ansi,artifacts,future-incompat"
    local lib="--crate-name it --edition=2021 it.rs --crate-type lib --out-dir out"
    kept_by_rustc "as cargo builds" $json $lib --emit=dep-info,metadata,link -C debuginfo=2 -C metadata=a1 -C extra-filename=-a1
    kept_by_rustc "as cargo checks" $json $lib --emit=dep-info,metadata -C metadata=a2 -C extra-filename=-a2
    kept_by_rustc "linked alone" $json $lib --emit=link
    kept_by_rustc "-O -g" $json $lib --emit=link,dep-info -O -g
    kept_by_rustc "a static library" $json --crate-name it it.rs --crate-type staticlib --out-dir out --emit=link
    kept_by_rustc "opt-level, joined" $json $lib --emit=link -Copt-level=3 --codegen=panic=abort
    kept_by_rustc "lints" $json $lib --emit=link -A unused --warn=missing_docs --force-warn=unused --cap-lints warn
    kept_by_rustc "features" $json $lib --emit=link --cfg 'feature="more"' --check-cfg 'cfg(feature, values("more"))'
    kept_by_rustc "remapped" $json $lib --emit=link -g "--remap-path-prefix=$PWD=/it"
    kept_by_rustc "for this processor" $json $lib --emit=link -C target-cpu=native
    kept_by_rustc "coverage" $json $lib --emit=link -C instrument-coverage
    like_rustc "messages that aren't JSON" $lib --emit=link
    kept_by_rustc "silent" --crate-name quiet --crate-type lib --emit=link --out-dir out quiet.rs
    like_rustc "an error" $json --crate-name wrong --crate-type lib --emit=link --out-dir out wrong.rs
    like_rustc "no file" $json --crate-name none --crate-type lib --emit=link --out-dir out none.rs
    passed_by_rustc "a program" $json --crate-name main --crate-type bin --emit=link --out-dir out main.rs
    passed_by_rustc "tests" $json --crate-name it --test --emit=link --out-dir out it.rs
    passed_by_rustc "-vV" -vV
    passed_by_rustc "--print" --print cfg
    passed_by_rustc "save-temps" $json $lib --emit=link -C save-temps
    passed_by_rustc "unpacked debug information" $json $lib --emit=link -g -C split-debuginfo=unpacked
    passed_by_rustc "assembly" $json $lib --emit=asm
    passed_by_rustc "another name" --crate-name it --crate-type lib it.rs -o out/other.rlib
    passed_by_rustc "an option that isn't known" $json $lib --emit=link -C llvm-args=-inline-threshold=10
    passed_by_rustc "crates that are searched" $json $lib --emit=link -L .
    GULMAAT_LOGFILE=$PWD/searched "$host" "$rustc" $json $lib --emit=link -L . 2>/dev/null
    is "rustc: crates that are searched: the log" grep -q ' unsupported_compiler_option .*(pass: -L \.)$' searched
    echo "--crate-name it it.rs --crate-type lib --out-dir out --emit=link" | tr ' ' '\n' >words
    passed_by_rustc "a file of words" @words
    mark
    echo 'pub fn f() {}' | "$host" "$rustc" - --crate-name it --crate-type lib --out-dir out --emit=link
    is "rustc: standard input" since 0 0
    LD_PRELOAD=/nowhere.so "$host" "$rustc" $lib --emit=link 2>/dev/null
    is "rustc: LD_PRELOAD" since 0 0
}

# What an output depends on beside the text of the crate.
rustc_changes() {
    local json="--error-format=json --json=diagnostic-rendered-ansi,artifacts"
    local it="$json --crate-name it --edition=2021 it.rs --crate-type lib --out-dir out --emit=dep-info,metadata,link"
    local user="$json --crate-name user --edition=2021 user.rs --crate-type lib --out-dir out --emit=link"
    changed_rustc "at first" 0 1 $it
    changed_rustc "again" 1 0 $it
    printf 'pub fn inner() -> u32 { 5 }\n' >inner.rs
    changed_rustc "a module changed" 0 1 $it
    printf 'pub fn inner() -> u32 { 4 }\n' >inner.rs
    changed_rustc "a module put back" 1 0 $it
    mkdir -p inner && mv inner.rs inner/mod.rs
    changed_rustc "a module moved" 0 1 $it
    printf 'pub fn inner() -> u32 { 4 }\n' >inner.rs
    changed_rustc "a module in two places" 0 0 $it
    rm -r inner
    changed_rustc "a module moved back" 1 0 $it
    printf 'other text' >text
    changed_rustc "a file that the source includes changed" 0 1 $it
    GREETING=morning changed_rustc "a variable that the source asks for" 0 1 $it
    GREETING=evening changed_rustc "another value" 0 1 $it
    changed_rustc "the variable unset" 1 0 $it
    CARGO_PKG_VERSION=2 changed_rustc "a variable of cargo" 0 1 $it
    RUSTC_BOOTSTRAP=1 changed_rustc "a variable of rustc" 0 1 $it
    UNKNOWN=1 changed_rustc "a variable that nobody reads" 1 0 $it
    changed_rustc "another option" 0 1 $it -C opt-level=1
    changed_rustc "a configuration that is checked, as an error" 0 0 $it -D warnings --check-cfg 'cfg(other)'
    # Crates by their names: which is which counts, and where they are doesn't.
    mkdir -p deps
    printf 'pub fn value() -> u32 { 1 }\n' | "$rustc" --crate-name one --crate-type lib --out-dir deps -
    printf 'pub fn value() -> u32 { 2 }\n' | "$rustc" --crate-name two --crate-type lib --out-dir deps -
    changed_rustc "crates" 0 1 $user --extern a=deps/libone.rlib --extern b=deps/libtwo.rlib
    changed_rustc "crates again" 1 0 $user --extern a=deps/libone.rlib --extern b=deps/libtwo.rlib
    changed_rustc "crates swapped" 0 1 $user --extern b=deps/libone.rlib --extern a=deps/libtwo.rlib
    printf 'pub fn value() -> u32 { 3 }\n' | "$rustc" --crate-name one --crate-type lib --out-dir deps -
    changed_rustc "a crate changed" 0 1 $user --extern a=deps/libone.rlib --extern b=deps/libtwo.rlib
    # A library that the source has put into the crate.
    mkdir -p native
    printf 'int number(void) { return 1; }\n' | gcc -x c -c - -o native/n.o && ar rcs native/libnumber.a native/n.o
    changed_rustc "a native library" 0 1 $json --crate-name nat --crate-type lib --out-dir out --emit=link nat.rs -L native=native
    printf 'int number(void) { return 2; }\n' | gcc -x c -c - -o native/n.o && ar rcs native/libnumber.a native/n.o
    changed_rustc "a native library changed" 0 1 $json --crate-name nat --crate-type lib --out-dir out --emit=link nat.rs -L native=native
    changed_rustc "a native library by a word" 0 1 $json --crate-name quiet --crate-type lib --out-dir out --emit=link quiet.rs -L native=native -l static=number
}

# Where outputs go: another folder isn't a miss, and messages and the text on dependencies name it.
rustc_places() {
    local json="--error-format=json --json=diagnostic-rendered-ansi,artifacts" folder
    local it="$json --crate-name it --edition=2021 it.rs --crate-type lib --emit=dep-info,metadata,link"
    for folder in out there "$PWD/whole" "$PWD/out/deeper" "sp ace"; do
        mkdir -p "$folder"
        "$rustc" $it --out-dir "$folder" 2>plain.errors
        (cd "$folder" && sha256sum it.d libit.*) >plain.sums
        rm -f "$folder"/*it.*
        mark
        "$host" "$rustc" $it --out-dir "$folder" 2>ours.errors
        is "rustc into $folder: a hit" since 1 0
        (cd "$folder" && sha256sum it.d libit.*) >ours.sums
        is "rustc into $folder: files" cmp -s plain.sums ours.sums
        is "rustc into $folder: messages" cmp -s plain.errors ours.errors
    done
    # Diagnostics are written for a width.
    mark
    "$rustc" $it --out-dir out --diagnostic-width=60 2>plain.errors
    "$host" "$rustc" $it --out-dir out --diagnostic-width=60 2>ours.errors
    is "rustc, another width: messages" cmp -s plain.errors ours.errors
    "$host" "$rustc" $it --out-dir out --diagnostic-width=60 2>ours.errors
    is "rustc, another width, again: messages" cmp -s plain.errors ours.errors
    # What is there before: files of two names, links, folders.
    for place in 'echo old >out/libit.rlib; ln -f out/libit.rlib other' 'ln -s ../target out/libit.rlib' 'echo old >out/libit.rlib; chmod 400 out/libit.rlib' 'mkdir out/libit.rlib'; do
        rm -rf out other target && mkdir out && eval "$place"
        "$rustc" $it --out-dir out 2>plain.errors
        echo $? >plain.state
        stat -c '%F %a %h' out/libit.rlib other target >>plain.state 2>&1
        rm -rf out other target && mkdir out && eval "$place"
        "$host" "$rustc" $it --out-dir out 2>ours.errors
        echo $? >ours.state
        stat -c '%F %a %h' out/libit.rlib other target >>ours.state 2>&1
        is "rustc onto $place" cmp -s plain.state ours.state
        is "rustc onto $place: messages" cmp -s plain.errors ours.errors
    done
    rm -rf out && mkdir out
}

# Whether --why says this of a command to rustc.
why_is() {
    local name=$1 wanted=$2 said
    shift 2
    said=$("$host" --why "$rustc" "$@" 2>&1)
    is "rustc, why, $name: $said" [ "$said" = "$wanted" ]
}

rustc_why() {
    local json="--error-format=json --json=artifacts" it
    it="$json --crate-name why why.rs --crate-type lib --out-dir out --emit=dep-info,link"
    printf 'mod part;\npub const A: Option<&str> = option_env!("GREETING");\n' >why.rs
    printf 'pub fn f() {}\n' >part.rs
    why_is "before" "why: nothing is known" $it
    "$host" "$rustc" $it 2>/dev/null
    why_is "the first call" "why: the first call that was compiled" $it
    printf 'pub fn g() {}\n' >part.rs
    "$host" "$rustc" $it 2>/dev/null
    why_is "a source" "why: file $PWD/part.rs" $it
    CARGO_PKG_VERSION=2 "$host" "$rustc" $it 2>/dev/null
    why_is "a variable" "why: CARGO_PKG_VERSION: 2, earlier none" $it
    "$host" "$rustc" $it -C opt-level=1 2>/dev/null
    "$host" "$rustc" $it -C opt-level=2 2>/dev/null
    why_is "a word" "why: word 12: opt-level=2, earlier opt-level=1" $it -C opt-level=2
    why_is "a program" "pass: crate-type: bin" --crate-name main --crate-type bin main.rs --emit=link --out-dir out
    rm -f out/*why*
}

# By rustup's proxy, with a toolchain among the arguments, and by a link.
rustc_proxies() {
    local proxy
    proxy=$(command -v rustc)
    [ "$(basename "$(realpath "$proxy")")" = rustup ] || { echo "rustc is no proxy of rustup here: that isn't tried"; return; }
    for words in "" "+$(rustup show active-toolchain | cut -d ' ' -f 1)"; do
        rm -f out/libquiet.rlib
        "$proxy" $words --crate-name quiet --crate-type lib --emit=link --out-dir out quiet.rs -C metadata=proxy
        cp out/libquiet.rlib plain.rlib
        mark
        for turn in first second; do
            rm -f out/libquiet.rlib
            "$host" "$proxy" $words --crate-name quiet --crate-type lib --emit=link --out-dir out quiet.rs -C metadata=proxy
            is "rustc by a proxy '$words', $turn" cmp -s plain.rlib out/libquiet.rlib
        done
        [ -n "$words" ] && is "rustc by a proxy '$words': the same toolchain" since 2 0 || is "rustc by a proxy" since 1 1
    done
}

rustc_calls() {
    local dir=$work/rustc rustc turn
    command -v rustc >/dev/null || { echo "rustc isn't here: its calls aren't tried"; return; }
    rustc=$(real_rustc)
    mkdir -p "$dir/out" && cd "$dir" || return
    "$host" --clear
    "$host" --zero-stats
    cat >it.rs <<'END'
mod inner;
pub const TEXT: &str = include_str!("text");
pub const GREETING: Option<&str> = option_env!("GREETING");
pub fn twice(x: u32) -> u32 { let unused = 3; inner::inner() * x }
#[cfg(other)] pub fn other() {}
END
    printf 'pub fn inner() -> u32 { 4 }\n' >inner.rs
    printf 'text' >text
    printf 'pub fn quiet() {}\n' >quiet.rs
    printf 'pub fn wrong() -> u32 { "" }\n' >wrong.rs
    printf 'fn main() {}\n' >main.rs
    printf 'pub fn both() -> u32 { a::value() * 10 + b::value() }\n' >user.rs
    printf '#[link(name = "number", kind = "static")] extern "C" { pub fn number() -> i32; }\n' >nat.rs
    # For a manifest, the times of files have to be earlier than the call.
    sleep 0.1
    rustc_words
    rustc_changes
    rustc_places
    rustc_why
    rustc_proxies
    is "rustc: hits are counted by language" [ "$("$host" --print-stats | awk '$1 == "rustc_cache_hit" { print $2 }')" = "$(counted | cut -d ' ' -f 1)" ]
    cd "$work" || return
}
