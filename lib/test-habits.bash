# shellcheck shell=bash disable=SC2016,SC2086,SC2154
# Each option, key and variable of gulmaat: a part of bin/test-builds, whose host, work and functions it uses.

# Whether an option prints this.
prints() {
    local name=$1 wanted=$2 got
    shift 2
    got=$("$@" 2>&1)
    is "$name" [ "$got" = "$wanted" ]
    [ "$got" = "$wanted" ] || printf '  printed: %s\n' "$got"
}

# Whether an option is refused with status 2 and a message that has this in it.
refused() {
    local name=$1 wanted=$2
    shift 2
    "$@" >messages 2>&1
    is "$name: status" [ $? = 2 ]
    is "$name: message" grep -qF -- "$wanted" messages
}

# The number under a name of the statistics.
number() { "$host" --print-stats | awk -F '\t' -v name="$1" '$1 == name { print $2 }'; }

# Whether a command adds one to this counter, whatever its status is.
counts() {
    local name=$1 counter=$2 before after
    shift 2
    before=$(number "$counter")
    "$@" >/dev/null 2>&1
    after=$(number "$counter")
    is "$name: $counter" [ "$((after - ${before:-0}))" = 1 ]
}

habits() {
    local dir=$work/habits GULMAAT_DIR=$work/habits/cache XDG_CONFIG_HOME=$work/habits/config file=$work/habits/cache/gulmaat.conf
    local -x GULMAAT_DIR XDG_CONFIG_HOME
    mkdir -p "$dir"
    cd "$dir" || return
    printf 'int f(void) { return COUNT; }\n' >it.c
    habits_help
    habits_statistics
    habits_counters
    habits_keeping
    habits_settings
    habits_variables
    habits_links
    habits_program
    cd "$work" || return
}

habits_help() {
    local option
    for option in "" -h --help; do
        "$host" $option >help
        is "help: '$option'" grep -q "^gulmaat COMPILER WORD" help
    done
    # Each option of the help is in the manual page and the completions, and the other way round.
    grep -o '^ *-[A-Za-z], --[a-z-]*\|^ *--[a-z-]*' help | grep -o -- '--[a-z-]*' | sort >options
    is "help: all options" [ "$(wc -l <options)" = 19 ]
    sed 's/\\-/-/g; s/"//g' "$top/share/gulmaat.1" | grep '^\.BR\? -' | grep -o -- '--[a-z-]*' | sort >manual
    is "the manual page has all of them, and -v" diff <(sort options <(echo --verbose)) manual
    is "bash completes all of them, and -v" diff manual <(grep -o -- '--[a-z-]*[a-z]' "$top/share/gulmaat.bash" | sort -u |
        grep -vx -- '--limit')
    is "zsh completes them" [ -z "$(comm -23 manual <(grep -o -- '--[a-z-]*[a-z]' "$top/share/_gulmaat" | sort -u))" ]
    is "fish completes them" diff <(sed 's/^--//' manual) <(grep -o -- '-l [a-z-]*' "$top/share/gulmaat.fish" | cut -c 4- | sort)
    for option in -V --version; do
        "$host" $option >version
        is "$option: version" grep -q "^gulmaat version $(cat "$top/VERSION")\$" version
        is "$option: commit" grep -q "^commit " version
        is "$option: proved" grep -q "^proved \(yes\|no: \)" version
        is "$option: kit" grep -q "^kit rattle-kit" version
    done
    refused "an option that is none" "--nothing is no option" "$host" --nothing
    refused "a short one" "-y is no option" "$host" -y
    refused "a word after an option" "all is no option" "$host" -C all
    refused "no value" "-M is no option, or lacks its value" "$host" -M
}

habits_statistics() {
    local option
    GULMAAT_DIRECT=0 "$host" gcc -DCOUNT=1 -c it.c -o it.o
    GULMAAT_DIRECT=0 "$host" gcc -DCOUNT=1 -c it.c -o it.o
    "$host" gcc -DCOUNT=1 -c it.c -o it.o
    "$host" gcc -DCOUNT=1 -c it.c -o it.o
    prints "statistics: hits by text" 2 number preprocessed_cache_hit
    prints "statistics: direct hits" 1 number direct_cache_hit
    prints "statistics: misses" 1 number cache_miss
    for option in -s --show-stats --show; do
        "$host" $option >shown
        is "$option: hits" grep -q "^Hits: *3 / 4 (75.00 %)" shown
        is "$option: direct" grep -q "^  Direct: *1 / 4 (25.00 %)" shown
        is "$option: by text" grep -q "^  By text: *2 / 4 (50.00 %)" shown
        is "$option: misses" grep -q "^Misses: *1 / 4 (25.00 %)" shown
        is "$option: size" grep -q "^Kept: *[1-9][0-9]* bytes of at most 5000000000\$" shown
        is "$option: folder" grep -q "^Directory: *$GULMAAT_DIR\$" shown
        is "$option: proved" grep -q "^Program: *proved " shown
    done
    prints "statistics: files" "$(find "$GULMAAT_DIR" -mindepth 3 -type f | wc -l)" number files_in_cache
    prints "statistics: size" "$(($(bytes_kept) / 1024))" number cache_size_kibibyte
    is "statistics: each line is a name, a tab and a number" \
        [ -z "$("$host" --print-stats | grep -vP '^[a-z][a-z0-9_]*\t[0-9]+$')" ]
    is "statistics: updated" [ "$(number stats_updated_timestamp)" -gt $(($(date +%s) - 100)) ]
    prints "statistics: not zeroed yet" 0 number stats_zeroed_timestamp
    for option in -z --zero-stats; do
        counts "before $option" direct_cache_hit "$host" gcc -DCOUNT=1 -c it.c -o it.o
        "$host" $option
        prints "$option: hits" 0 number direct_cache_hit
        is "$option: when" [ "$(number stats_zeroed_timestamp)" -gt $(($(date +%s) - 100)) ]
        is "$option: what is kept stays" [ "$(results_kept)" = 1 ]
    done
    counts "two letters" direct_cache_hit "$host" gcc -DCOUNT=1 -c it.c -o it.o
    is "-zs does both" grep -q "^Hits: *0 / 0\$" <("$host" -zs)
}

# What each kind of call is counted as.
habits_counters() {
    local cc
    cp /bin/true tool
    printf 'int f(void) { return }\n' >fails.c
    printf '#error no\n' >told.c
    printf '__asm__(".incbin \\"it.c\\"");\n' >takes.c
    counts "a link" called_for_link "$host" gcc it.o -o it
    counts "a preprocessor" called_for_preprocessing "$host" gcc -E it.c
    counts "dependencies" unsupported_compiler_option "$host" gcc -M it.c
    counts "two inputs" multiple_source_files "$host" gcc -c it.c fails.c
    counts "no input" no_input_file "$host" gcc -c
    counts "no compile" no_input_file "$host" gcc --version
    counts "a language" unsupported_source_language "$host" gcc -c -x nothing it.c
    counts "an option" unsupported_compiler_option "$host" gcc -fverbose-asm -DCOUNT=1 -c it.c
    counts "which option" option_fverbose_asm "$host" gcc -fverbose-asm -DCOUNT=1 -c it.c
    counts "a variable" unsupported_environment_variable env LD_PRELOAD=/nowhere.so "$host" gcc -DCOUNT=1 -c it.c
    counts "which variable" variable_ld_preload env LD_PRELOAD=/nowhere.so "$host" gcc -DCOUNT=1 -c it.c
    counts "a file that the assembler takes in" unsupported_code_directive "$host" gcc -c takes.c
    counts "an error of the preprocessor" preprocessor_error "$host" gcc -c told.c
    counts "an error of the compiler" compile_failed "$host" gcc -c fails.c
    counts "no compiler" uncacheable_unknown_compiler "$host" ./tool -c it.c
    counts "-S" option_s "$host" gcc -DCOUNT=1 -S it.c
    counts "standard input" uncacheable_standard_input "$host" gcc -x c -c - -o it.o </dev/null
    counts "an object on standard output" output_to_stdout "$host" gcc -DCOUNT=1 -c it.c -o -
    printf 'case $1 in -print-*) exit 1 ;; esac\nexec gcc "$@"\n' | stand_in gcc
    counts "a compiler that says nothing" error_the_compiler_doesn_t_name_its_parts "$host" ./gcc -DCOUNT=1 -c it.c
    "$host" -s >shown
    is "uncacheable calls" grep -q "^Uncacheable: *18\$" shown
    is "errors" grep -q "^Errors: *1\$" shown
    is "errors: which" grep -q "^  error_the_compiler_doesn_t_name_its_parts *1\$" shown
    is "the reasons are in falling order" [ "$(sed -n '/^Uncacheable/,/^Errors/p' shown | awk '/^  / { print $2 }')" = \
        "$(sed -n '/^Uncacheable/,/^Errors/p' shown | awk '/^  / { print $2 }' | sort -rn)" ]
    is "-s has no options" [ "$(grep -c option_ shown)" = 0 ]
    for cc in -sv "-s -v" "--show-stats --verbose"; do is "$cc has options" grep -q "^  option_fverbose_asm *2\$" <("$host" $cc); done
}

habits_keeping() {
    local option before
    for option in -C --clear; do
        "$host" gcc -DCOUNT=1 -c it.c -o it.o
        before=$(number cache_miss)
        "$host" $option
        prints "$option: nothing is kept" 0 number files_in_cache
        prints "$option: the counters stay" "$before" number cache_miss
    done
    # Sizes as ccache reads them.
    for option in "5 5000000000" "7k 7000" "3M 3000000" "2G 2000000000" "1T 1000000000000" "7Ki 7168" "3Mi 3145728" "2Gi 2147483648" \
        "1Ti 1099511627776"; do
        for before in -M --max-size --limit; do
            "$host" $before "${option% *}"
            is "$before ${option% *}" grep -q "of at most ${option#* }\$" <("$host" -s)
        done
    done
    "$host" -M5G
    prints "-M5G" 5G "$host" -k max_size
    "$host" --max-size=4G
    prints "--max-size=4G" 4G "$host" -k max_size
    "$host" -M 0
    is "-M 0" grep -q "without a limit" <("$host" -s)
    refused "-M 5X" "max_size is 5X: set it to a whole number" "$host" -M 5X
    prints "-M 5X: it stays what it was" 0 "$host" -k max_size
    is "-M writes one line" [ "$(grep -c max_size "$file")" = 1 ]
    # Forty results count in whole blocks, with all that is kept beside them; at the limit the first ones are evicted.
    for before in $(seq 1 40); do "$host" gcc -DCOUNT="$before" -c it.c -o "it-$before.o"; done
    is "blocks count" [ "$(number cache_size_kibibyte)" -ge $((40 * 3 * 4)) ]
    prints "blocks count: exactly" "$(($(bytes_kept) / 1024))" number cache_size_kibibyte
    counts "the limit is passed" cleanups_performed env GULMAAT_MAXSIZE=300k "$host" gcc -DCOUNT=41 -c it.c -o it.o
    is "the limit holds" [ "$(bytes_kept)" -le 300000 ]
    is "hints and fingerprints go too" [ "$(find "$GULMAAT_DIR/hints" "$GULMAAT_DIR/fingerprints" -type f | wc -l)" -lt 60 ]
    # A result of another version, and noted sizes that are wrong.
    mkdir -p "$GULMAAT_DIR/results/00"
    head -c 100000 /dev/zero >"$GULMAAT_DIR/results/00/old"
    touch -d '10 days ago' "$GULMAAT_DIR/results/00/old"
    for option in -c --cleanup; do
        GULMAAT_MAXSIZE=200k "$host" $option
        is "$option" [ "$(bytes_kept)" -le 200000 ]
        is "$option: what is old goes first" [ ! -e "$GULMAAT_DIR/results/00/old" ]
    done
    before=$(results_kept)
    find "$GULMAAT_DIR/results" -type f | head -n 1 | xargs touch -d '2 hours ago'
    for option in 3h 1d 200m 8000s; do
        "$host" --evict-older-than $option
        is "--evict-older-than $option" [ "$(results_kept)" = "$before" ]
    done
    "$host" --evict-older-than 90m
    is "--evict-older-than 90m" [ "$(results_kept)" = $((before - 1)) ]
    for option in 5 d 5w -1d; do refused "--evict-older-than $option" "an age is a number" "$host" --evict-older-than $option; done
    # Another cache directory.
    for option in -d --dir; do
        "$host" $option other -z
        is "$option: its own counters" grep -q "^cache_miss.0\$" <("$host" $option other --print-stats)
        is "$option: its name" grep -q "^Directory: *$PWD/other\$" <("$host" $option other -s)
    done
    rm "$file"
}

# The value of a key, and where it comes from.
shows() { prints "$1 = $2, from $3" "($3) $1 = $2" grep "^([^)]*) $1 =" <("$host" -p); }

habits_settings() {
    local option key value
    for option in -p --show-config; do is "$option: sixteen keys" [ "$("$host" $option | wc -l)" = 16 ]; done
    shows max_size 5G default
    shows cache_dir "$GULMAAT_DIR" GULMAAT_DIR
    for option in -o --set-config; do
        "$host" $option max_size=3G
        shows max_size 3G "$file"
        "$host" $option "max_size = 5G"
        shows max_size 5G "$file"
    done
    for option in -k --get-config; do prints "$option" 5G "$host" $option max_size; done
    prints "all keys are read" "" "$host" -o read_only=no -o recache=off -o stats=on -o disable=0 -o direct_mode=false -o log_file= -o log_format=json -o base_dir= -o umask=002 -o sloppiness=lines -o audit=7 -o allow_options="-fone -ftwo"
    for key in read_only recache stats disable direct_mode log_file log_format base_dir max_size umask sloppiness audit allow_options; do
        is "$key comes from the file" grep -q "^($file) $key = " <("$host" -p)
    done
    printf '# a comment\n\n  stats=yes\n' >"$file"
    shows stats yes "$file"
    refused "-k nothing" "no key is called nothing" "$host" -k nothing
    refused "-o nothing=1" "no key is called nothing" "$host" -o nothing=1
    refused "-o stats" "-o takes KEY=VALUE" "$host" -o stats
    refused "-o stats=maybe" "stats is maybe: set it to 1, yes, true or on, or 0, no, false or off" "$host" -o stats=maybe
    refused "-o audit=some" "audit is some: set it to a whole number, or tell" "$host" -o audit=some
    refused "-o cache_dir=here" "cache_dir is here: set it to an absolute path" "$host" -o cache_dir=here
    refused "-o log_format=xml" "log_format is xml: set it to text or json" "$host" -o log_format=xml
    for value in 8 1777 -2 rw; do
        refused "-o umask=$value" "umask is $value: set it to an octal number up to 777" "$host" -o umask=$value
    done
    shows stats yes "$file"
    # Where a file is wrong, a message says so, and the compiler runs.
    for option in "nothing = 1" "stats" "stats = maybe"; do
        echo "$option" >"$file"
        rm -f it.o
        "$host" gcc -DCOUNT=1 -c it.c -o it.o 2>messages
        is "a file with '$option': the compiler runs" [ -f it.o ]
        is "a file with '$option': message" grep -q "^gulmaat: $file" messages
        refused "a file with '$option'" "$file" "$host" -p
    done
    rm "$file"
    # Without GULMAAT_DIR it is the user's file, and cache_dir there names the folder.
    (
        export XDG_CACHE_HOME=$PWD/home-cache
        env -u GULMAAT_DIR "$host" -o cache_dir="$PWD/third"
        env -u GULMAAT_DIR "$host" gcc -DCOUNT=1 -c it.c -o it.o
        cp "$XDG_CONFIG_HOME/gulmaat/gulmaat.conf" found
        env -u GULMAAT_DIR "$host" -k cache_dir >>found
    )
    prints "cache_dir in the user's file" "cache_dir = $PWD/third"$'\n'"$PWD/third" cat found
    is "cache_dir in the user's file: that is where things are kept" [ -d third/results ]
    rm -r "$XDG_CONFIG_HOME"
    # Without HOME it is in the home directory of the account.
    env -i PATH="$PATH" "$host" --show-stats >/dev/null
    is "no HOME" [ $? = 0 ]
}

# All that is made in the cache directory has the rights that the umask setting leaves, and an object those of the caller's umask.
habits_umask() {
    local mask files folders
    for mask in 002 027 077; do
        files=$(printf '%o' $((0666 & ~0$mask)))
        folders=$(printf '%o' $((0777 & ~0$mask)))
        rm -rf shared
        mkdir -m 700 shared
        (
            umask 022
            export GULMAAT_DIR=$PWD/shared/kept GULMAAT_UMASK=$mask GULMAAT_DIRECT=1
            "$host" gcc -DCOUNT=1 -c it.c -o masked.o
            "$host" gcc -DCOUNT=1 -c it.c -o masked.o
        )
        is "umask $mask: files" [ -z "$(find shared/kept -type f ! -perm "$files")" ]
        is "umask $mask: folders" [ -z "$(find shared/kept -type d ! -perm "$folders")" ]
        is "umask $mask: something is kept" [ -n "$(find shared/kept/results -type f)" ]
        is "umask $mask: the object" [ "$(stat -c %a masked.o)" = 644 ]
    done
    rm -rf shared
}

habits_variables() {
    local value dir=$PWD
    for value in 1 yes true on; do
        counts "GULMAAT_DISABLE=$value" disabled env GULMAAT_DISABLE=$value "$host" gcc -DCOUNT=1 -c it.c -o it.o
    done
    "$host" gcc -DCOUNT=1 -c it.c -o it.o
    for value in 0 no false off; do
        counts "GULMAAT_DISABLE=$value" direct_cache_hit env GULMAAT_DISABLE=$value "$host" gcc -DCOUNT=1 -c it.c -o it.o
    done
    for value in GULMAAT_DISABLE GULMAAT_RECACHE GULMAAT_READONLY GULMAAT_DIRECT GULMAAT_STATS; do
        rm -f it.o
        env $value=maybe "$host" gcc -DCOUNT=1 -c it.c -o it.o 2>messages
        is "$value=maybe: the compiler runs" [ -f it.o ]
        is "$value=maybe: message" grep -q "^gulmaat: $value: .* is maybe: set it to 1, yes, true or on" messages
        refused "$value=maybe: -p" "is maybe" env $value=maybe "$host" -p
    done
    habits_umask
    counts "GULMAAT_RECACHE=1" recache env GULMAAT_RECACHE=1 "$host" gcc -DCOUNT=1 -c it.c -o it.o
    counts "GULMAAT_RECACHE=0" direct_cache_hit env GULMAAT_RECACHE=0 "$host" gcc -DCOUNT=1 -c it.c -o it.o
    value=$(number files_in_cache)
    counts "GULMAAT_READONLY=1, a miss" cache_miss env GULMAAT_READONLY=1 "$host" gcc -DCOUNT=77 -c it.c -o it.o
    prints "GULMAAT_READONLY=1: nothing is kept" "$value" number files_in_cache
    counts "GULMAAT_READONLY=1, a hit" direct_cache_hit env GULMAAT_READONLY=1 "$host" gcc -DCOUNT=1 -c it.c -o it.o
    value=$("$host" --print-stats | grep -v updated)
    GULMAAT_STATS=0 "$host" gcc -DCOUNT=1 -c it.c -o it.o
    prints "GULMAAT_STATS=0" "$value" eval "'$host' --print-stats | grep -v updated"
    GULMAAT_LOGFILE=$dir/log "$host" gcc -DCOUNT=1 -c it.c -o it.o
    GULMAAT_LOGFILE=$dir/log "$host" gcc it.o -o it 2>/dev/null
    is "GULMAAT_LOGFILE: a hit" grep -qE "^[0-9]+ direct_cache_hit [0-9]+ ms: [^ ]*gcc -DCOUNT=1 -c it.c -o it.o\$" log
    is "GULMAAT_LOGFILE: a pass" grep -qE "^[0-9]+ called_for_link [0-9]+ ms: [^ ]*gcc it.o -o it \(pass: not a compilation\)\$" log
    is "GULMAAT_LOGFILE: a line a call" [ "$(wc -l <log)" = 2 ]
    is "GULMAAT_MAXSIZE" grep -q "of at most 7000\$" <(GULMAAT_MAXSIZE=7k "$host" -s)
    "$host" -M 9G
    is "GULMAAT_MAXSIZE comes before the file" grep -q "of at most 7000\$" <(GULMAAT_MAXSIZE=7k "$host" -s)
    refused "GULMAAT_MAXSIZE=7" "" env GULMAAT_MAXSIZE=7X "$host" -s
    rm "$file"
    # A folder that isn't absolute.
    rm -f it.o
    GULMAAT_DIR=here "$host" gcc -DCOUNT=1 -c it.c -o it.o 2>messages
    is "GULMAAT_DIR=here: the compiler runs" [ -f it.o ]
    is "GULMAAT_DIR=here: message" grep -q "GULMAAT_DIR is here: set it to an absolute path" messages
    GULMAAT_BASEDIRS=here "$host" gcc -DCOUNT=1 -c it.c -o it.o 2>messages
    is "GULMAAT_BASEDIRS=here: message" grep -q "base_dir is here: set it to absolute paths" messages
    is "GULMAAT_BASEDIRS" grep -q "^(GULMAAT_BASEDIRS) base_dir = /a:/b\$" <(GULMAAT_BASEDIRS=/a:/b "$host" -p)
}

habits_links() {
    "$host" --links links >made
    is "--links: gcc" [ -L links/gcc ]
    is "--links: each compiler of the path" [ -L links/g++ ]
    is "--links: nothing else" [ ! -e links/ld ]
    is "--links: it says which" grep -qx "$PWD/links/gcc" made
    counts "--links: a link works" direct_cache_hit env PATH="$PWD/links:$PATH" gcc -DCOUNT=1 -c it.c -o it.o
    "$host" --links links >/dev/null
    is "--links: again" [ -L links/gcc ]
    rm links/gcc
    touch links/gcc
    refused "--links: a file in its place" "links/gcc is there, and is no link" "$host" --links links
}

# The program beside the host, where it is installed, and where it isn't.
habits_program() {
    mkdir -p alone/bin alone/lib/gulmaat
    cp "$host" alone/bin/gulmaat
    rm -f it.o
    alone/bin/gulmaat gcc -DCOUNT=1 -c it.c -o it.o 2>messages
    is "no program: the compiler runs" [ -f it.o ]
    is "no program: message" grep -q "^gulmaat: its program isn't at .*/alone/bin/gulmaat, beside this, nor at .*/alone/bin/../lib/gulmaat/gulmaat: set GULMAAT_BIN" messages
    alone/bin/gulmaat -s 2>messages
    is "no program: an option" [ $? = 127 ]
    ln -s gulmaat alone/bin/gcc
    timeout 10 env PATH="$PWD/alone/bin:$PATH" gcc -DCOUNT=1 -c it.c -o it.o 2>/dev/null
    is "no program: a link to the host" [ $? = 0 ]
    cp "${host%-host}" alone/lib/gulmaat/gulmaat
    prints "the program where it is installed" 5G alone/bin/gulmaat -k max_size
    rm alone/lib/gulmaat/gulmaat
    mv alone/bin/gulmaat alone/bin/gulmaat-host
    cp "${host%-host}" alone/bin/gulmaat
    prints "the program beside its host" 5G alone/bin/gulmaat-host -k max_size
    # Only a host in a directory called bin takes a program from lib beside that: whoever may write beside any other directory is a stranger.
    mkdir -p beside/launcher beside/lib/gulmaat
    cp "$host" "${host%-host}" beside/launcher
    printf '#!/bin/sh\ntouch %s\nexit 11\n' "$PWD/stranger" >beside/lib/gulmaat/gulmaat
    chmod +x beside/lib/gulmaat/gulmaat
    prints "the program of a host in another directory" 5G beside/launcher/gulmaat-host -k max_size
    is "a stranger's program isn't run" [ ! -e stranger ]
    rm beside/launcher/gulmaat
    beside/launcher/gulmaat-host gcc -DCOUNT=1 -c it.c -o it.o 2>messages
    is "a stranger's program isn't run where there is no other" [ ! -e stranger ]
    is "nor is lib named" grep -q "^gulmaat: its program isn't at .*/beside/launcher/gulmaat, beside this: set GULMAAT_BIN" messages
    GULMAAT_BIN=/nowhere "$host" gcc -DCOUNT=1 -c it.c -o it.o 2>messages
    is "GULMAAT_BIN=/nowhere: message" grep -q "^gulmaat: its program isn't at /nowhere: set GULMAAT_BIN to it" messages
    GULMAAT_BIN=$host timeout 10 "$host" gcc -DCOUNT=1 -c it.c -o it.o 2>messages
    is "GULMAAT_BIN names the host itself" grep -q "set GULMAAT_BIN to it" messages
}

# Many processes that count at once lose nothing.
counters() {
    local GULMAAT_DIR=$work/counters
    local -x GULMAAT_DIR
    mkdir -p "$GULMAAT_DIR"
    for _ in $(seq 1 64); do
        for _ in $(seq 1 1000); do "$host" /bin/true; done &
    done
    wait
    prints "counters: 64 processes of 1,000 calls each" 64000 number uncacheable_unknown_compiler
    is "counters: the file is small" [ "$(stat -c %s "$GULMAAT_DIR/statistics")" -lt 100000 ]
}
