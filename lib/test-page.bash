# shellcheck shell=bash disable=SC2016,SC2086,SC2154
# Logs in JSON, and what is made of them: a page, a trace and a comparison. A part of bin/test-builds, whose host, work and functions it uses.

# Counts the verdicts in lines of 'ok NAME' or 'FAILED NAME'. There must be at least so many.
take_verdicts() {
    local least=$1 verdict name count=0
    while read -r verdict name; do
        is "$name" [ "$verdict" = ok ]
        count=$((count + 1))
    done
    is "at least $least things were looked at: $count" [ "$count" -ge "$least" ]
}

# A member of the last line of the log, as Python shows it.
logged() { tail -n 1 log | python3 -c "import json, sys; it = json.load(sys.stdin); print($1)"; }

# Runs these in a folder of their own.
in_page() {
    local dir=$work/page GULMAAT_DIR=$work/page/cache
    local -x GULMAAT_DIR
    mkdir -p "$dir"
    cd "$dir" || return
    local each
    for each; do "$each"; done
    cd "$work" || return
}

# What is shown of short logs.
logs() { in_page page_lines page_wrong page_hostile page_compare; }

# That, and what is shown of a real build and of a long one.
page() { logs; in_page page_build page_made; }

# What a line says of a call.
page_lines() {
    local -x GULMAAT_LOGFILE=$PWD/log GULMAAT_LOG_FORMAT=json
    local begun
    printf '#include "it.h"\nint f(void) { return COUNT; }\n' >it.c
    echo '#define COUNT 1' >it.h
    settle
    begun=$(date +%s)
    "$host" gcc -O2 -c it.c -o it.o
    is "log: a miss" [ "$(logged 'it["v"], it["what"], it["status"]')" = "1 cache_miss 0" ]
    is "log: when" [ "$(logged "$begun * 10**6 <= it['start'] < it['end'] < ($begun + 100) * 10**6")" = True ]
    is "log: whose" [ "$(logged 'it["ppid"]')" = $$ ]
    is "log: the command" [ "$(logged 'it["compiler"], it["words"]')" = "$(command -v gcc) ['-O2', '-c', 'it.c', '-o', 'it.o']" ]
    is "log: folder, input and output" [ "$(logged 'it["dir"], it["input"], it["output"]')" = "$PWD it.c it.o" ]
    is "log: bytes" [ "$(logged 'it["bytes"]')" = "$(stat -c %s it.o)" ]
    is "log: the first time" [ "$(logged 'it["why"]')" = "the first call that was compiled" ]
    is "log: one compile, within the call" [ "$(logged '[it["start"] <= a < b <= it["end"] for k, a, b in it["ran"] if k == "C"]')" = "[True]" ]
    is "log: a preprocessor" [ "$(logged 'any(k == "P" for k, _, _ in it["ran"])')" = True ]
    begun=$(logged '[b - a for k, a, b in it["ran"] if k == "C"][0] // 1000')
    "$host" gcc -O2 -c it.c -o it.o
    is "log: a hit" [ "$(logged 'it["what"], it["ran"], "why" in it')" = "direct_cache_hit [] False" ]
    is "log: what it saves" [ "$(logged "abs(it['compile_time'] // 1000 - $begun) <= 1")" = True ]
    echo '#define COUNT 2' >it.h
    "$host" gcc -O2 -c it.c -o it.o
    is "log: a miss again" [ "$(logged 'it["what"]')" = cache_miss ]
    is "log: what --why says" [ "it.o: $(logged 'it["why"]')" = "$("$host" --why gcc -O2 -c it.c -o it.o)" ]
    echo '#define COUNT 1' >it.h
    "$host" gcc -O2 -c it.c -o it.o
    is "log: a hit by text" [ "$(logged 'it["what"].replace("direct", "preprocessed")')" = preprocessed_cache_hit ]
    # A call that is passed through has an end and a status too.
    "$host" gcc it.o -o it 2>/dev/null
    is "log: a link that fails: status" [ $? = "$(logged 'it["status"]')" ]
    is "log: a link" [ "$(logged 'it["what"], it["reason"], [k for k, _, _ in it["ran"]]')" = "called_for_link pass: not a compilation ['C']" ]
    printf 'int f(void) { return }\n' >fails.c
    "$host" gcc -c fails.c -o fails.o 2>/dev/null
    is "log: an error: status" [ $? = 1 ]
    is "log: an error" [ "$(logged 'it["what"], it["status"]')" = "compile_failed 1" ]
    echo 'int x;' | "$host" gcc -x c -c - -o stdin.o
    is "log: standard input goes on" [ -s stdin.o ]
    is "log: standard input" [ "$(logged 'it["what"]')" = uncacheable_standard_input ]
    printf 'kill -TERM $$\n' | stand_in killed
    "$host" ./killed 2>/dev/null
    is "log: a signal ends the call" [ $? = 143 ]
    is "log: a signal" [ "$(logged 'it["status"]')" = 143 ]
    printf '[ -t 0 ] && exec 0<&-; read -r line; echo "$line"; echo here >&2; exit 7\n' | stand_in speaks
    is "log: what a compiler prints goes on" [ "$(echo said | "$host" ./speaks 2>errors) $?" = "said 7" ]
    is "log: on both streams" [ "$(cat errors)" = here ]
    "$host" gcc -c it.c -o it.o >&- <&-
    is "log: closed streams" [ "$(logged 'it["status"]')" = 0 ]
    # Bytes that aren't UTF-8.
    cp it.c $'a\xffb.c'
    "$host" gcc -c $'a\xffb.c' -o bytes.o
    is "log: bytes" [ "$(logged 'it["input"], it["output"]')" = "{'hex': '61ff622e63'} bytes.o" ]
    mkdir "$PWD/quotes"
    printf 'int q;\n' >'quotes/"<\>&.c'
    "$host" gcc -c 'quotes/"<\>&.c' -o quotes.o
    is "log: quotes" [ "$(logged 'it["input"]')" = 'quotes/"<\>&.c' ]
    is "log: nothing of markup" [ "$(grep -c '[<>]' log)" = 0 ]
    # Each line is whole, also of calls at once.
    for begun in $(seq 1 24); do "$host" gcc -DTURN=$begun -c it.c -o at-once-$begun.o & done
    wait
    is "log: all lines are whole" python3 -c 'import json; [json.loads(line) for line in open("log", "rb")]'
    is "log: a line a call" [ "$(grep -c at-once- log)" = 24 ]
    # Where the log can't be written, a call is as without one.
    rm -f it.o
    GULMAAT_LOGFILE=$PWD/quotes "$host" gcc -O2 -c it.c -o it.o
    is "log: one that can't be written" [ $? = 0 -a -s it.o ]
}

# What can't be shown is refused, with a message that says what is right.
page_wrong() {
    refused "--page without a log" "write --page LOG" "$host" --page
    refused "--page of nothing" "nothing-there" "$host" --page nothing-there
    refused "--compare of one" "write --compare LOG LOG" "$host" --compare log
    refused "--page with more" "write --all or --ninja FILE" "$host" --page log more
    refused "--ninja without a file" "write --ninja FILE" "$host" --page log --ninja
    refused "--page of a name that is no text" "an argument is no text" "$host" --page $'a\xffb'
    : >empty
    is "--page of an empty log" "$host" --page empty >empty.html
    is "--trace of an empty log" "$host" --trace empty >empty.json
    is "--trace of an empty log: JSON" python3 -m json.tool empty.json /dev/null
    is "--compare of empty logs" "$host" --compare empty empty >/dev/null
    # A log is shown also where there is no cache directory, or no current folder.
    is "--page without a cache directory" cmp -s empty.html <(env -u GULMAAT_DIR -u XDG_CACHE_HOME -u HOME "$host" --page empty)
    is "--page with a wrong GULMAAT_DIR" cmp -s empty.html <(GULMAAT_DIR=nowhere "$host" --page empty)
    is "--page without a current folder" cmp -s empty.html <(mkdir gone && cd gone && rmdir ../gone && "$host" --page "$dir/empty")
    is "--page makes no cache directory" [ "$(GULMAAT_DIR=$PWD/nothing "$host" --page empty | cmp - empty.html; ls -d nothing 2>/dev/null)" = "" ]
    # Script and style are beside the program.
    mkdir -p beside
    cp "${host%-host}" "${host%/*}/page.js" "${host%/*}/page.css" beside
    is "--page by another program" cmp -s empty.html <(GULMAAT_BIN=$PWD/beside/gulmaat "$host" --page empty)
    is "--page by a program in the current folder" cmp -s empty.html <(cd beside && GULMAAT_BIN=gulmaat "$host" --page ../empty)
    rm beside/page.js
    refused "--page without its script" "beside/page.js: " env GULMAAT_BIN="$PWD/beside/gulmaat" "$host" --page empty
}

# A page of such a log runs nothing, the program ends, and the page says how much is broken.
page_hostile() {
    local sums
    sums=$(python3 "$top/lib/page/logs.py" hostile hostile.log)
    "$host" --page hostile.log --all >hostile.html
    is "--page of a hostile log" [ $? = 0 ]
    "$host" --trace hostile.log --all >hostile.json
    is "--trace of a hostile log" [ $? = 0 ]
    is "--compare of hostile logs" "$host" --compare hostile.log hostile.log >/dev/null
    take_verdicts 6 < <(python3 "$top/lib/page/traces.py" hostile.json "$(python3 -c "import json; print(json.loads('$sums')['calls'])")" 2>&1)
    in_browser hostile hostile.html "$sums" 30
    # Random bytes, and a log that is cut at any place.
    head -c 100000 /dev/urandom >chance.log
    is "--page of bytes by chance" "$host" --page chance.log >chance.html
    for sums in 10 100 999 1500; do
        head -c $sums hostile.log >cut.log
        is "--page of a log of $sums bytes" "$host" --page cut.log >cut.html
    done
}

# Builds side by side.
page_compare() {
    local sums common='"v":1,"dir":"/w","compiler":"gcc","words":["-c"],"pid":1,"ppid":1'
    printf '{%s,"what":"%s","output":"%s","start":%d,"end":%d%s}\n' \
        "$common" cache_miss a.o 1000000 3000000 '' "$common" cache_miss b.o 1000000 2000000 '' \
        "$common" direct_cache_hit c.o 2000000 2001000 ',"compile_time":501000' >one.log
    printf '{%s,"what":"%s","output":"%s","start":%d,"end":%d%s}\n' \
        "$common" direct_cache_hit a.o 9000000 9010000 ',"compile_time":1010000' "$common" cache_miss b.o 9000000 9500000 '' \
        "$common" cache_miss c.o 9000000 9750000 ',"why":"text: lines of c.h"' >two.log
    "$host" --compare one.log two.log >compared
    is "--compare: twenty lines at most" [ "$(wc -l <compared)" -le 20 ]
    for sums in "Calls 3 3" "Direct hits 1 1" "Misses 2 2" "Wall time 2.00 s 750 ms" "Time saved 500 ms 1.00 s"; do
        is "--compare: $sums" grep -qx "$sums" <(tr -s ' ' <compared)
    done
    is "--compare: how many" grep -q "^Of 3 calls of both, 2 came to another thing:" compared
    is "--compare: a miss" grep -qx "  1 in 750 ms: direct hit -> miss, by c.h" compared
    is "--compare: a hit" grep -qx "  1 in 10 ms: miss -> direct hit" compared
    # Builds of one log, by parent and gap.
    sed 's/"ppid":1/"ppid":2/; s/"start":9/"start":90/; s/"end":9/"end":90/' two.log | cat one.log - >both.log
    is "--page: the last build" grep -q 'data-count="3">3</b></dd></div>' <("$host" --page both.log)
    is "--page: all builds" grep -q 'data-count="6">6</b></dd></div>' <("$host" --page both.log --all)
}

# The Python that drives a browser, where one is there: perhaps that of the system, for which its package is.
driving_python() {
    local python
    command -v chromium >/dev/null && command -v chromedriver >/dev/null || return
    for python in python3 /usr/bin/python3; do
        ! "$python" -c 'import selenium' 2>/dev/null || { echo "$python"; return; }
    done
}

# Looks at a page by a browser, where there is one.
in_browser() {
    local kind=$1 file=$2 sums=$3 least=$4 python
    python=$(driving_python)
    if [ -z "$python" ]; then
        echo "no Chromium with chromium-driver and python3-selenium is there: the $kind page isn't looked at"
        return
    fi
    take_verdicts "$least" < <("$python" "$top/lib/page/browser.py" "$kind" "$file" "$sums" ${SHOTS:-} 2>&1)
}

# Names and numbers of the statistics as a page has them: those since they were zeroed.
facts_of() {
    "$host" --print-stats | python3 -c '
import json, sys
counts = {name: int(number) for name, number in (line.split() for line in sys.stdin)}
none = ("cache_size_kibibyte", "files_in_cache", "cleanups_performed", "stats_updated_timestamp", "stats_zeroed_timestamp")
kinds = ("direct_cache_hit", "preprocessed_cache_hit", "cache_miss")
rest = {name: number for name, number in counts.items() if name not in none + kinds and not name.startswith(("option_", "variable_", "no_manifest"))}
errors = sum(number for name, number in rest.items() if name.startswith("error_"))
facts = {"Direct hits": counts.get(kinds[0], 0), "Hits by text": counts.get(kinds[1], 0), "Misses": counts.get(kinds[2], 0),
         "Uncacheable": sum(rest.values()) - errors, "Failures of gulmaat": errors}
facts["Calls"] = sum(facts.values())
print(json.dumps({"calls": facts["Calls"], "facts": facts}))'
}

# A real build, cold and warm, of which the page has the sums of the statistics.
page_build() {
    local -x GULMAAT_LOGFILE=$PWD/build.log GULMAAT_LOG_FORMAT=json
    local sums source=$sources
    [ -f "$source/CMakeLists.txt" ] || { echo "googletest isn't there: no page of it"; return; }
    "$host" --zero-stats
    cmake -S "$source" -B gtest -G Ninja -DCMAKE_CXX_COMPILER_LAUNCHER="$host" -DCMAKE_C_COMPILER_LAUNCHER="$host" >cmake.out 2>&1
    cmake --build gtest -j 4 >>cmake.out 2>&1
    is "googletest is built" [ $? = 0 ]
    cmake --build gtest -j 4 --clean-first >>cmake.out 2>&1
    sums=$(facts_of)
    "$host" --page build.log --all >build.html
    is "--page of googletest" [ $? = 0 ]
    in_browser build build.html "$sums" 30
    "$host" --trace build.log --all >build.json
    take_verdicts 6 < <(python3 "$top/lib/page/traces.py" build.json "$(grep -c . build.log)" 2>&1)
    # Archives and links are in ninja's own log alone.
    "$host" --page build.log --ninja gtest/.ninja_log >ninja.html
    is "--ninja: other commands" grep -q "other command" ninja.html
    is "--ninja: which" grep -q "libgtest.a" ninja.html
    is "without it: none" [ "$(grep -c libgtest.a build.html)" = 0 ]
}

# A build of 20,000 calls.
page_made() {
    local sums
    sums=$(python3 "$top/lib/page/logs.py" made 20000 made.log)
    "$host" --page made.log >made.html
    is "--page of 20,000 calls" [ $? = 0 ]
    is "it weighs less than 10 MB" [ "$(stat -c %s made.html)" -lt 10000000 ]
    sums=$(python3 -c "
import json
sums = json.loads('$sums')
facts = {'Calls': sums['calls'], 'Direct hits': sums['direct_cache_hit'], 'Hits by text': sums['preprocessed_cache_hit'],
         'Misses': sums['cache_miss'], 'Uncacheable': sums['called_for_link'] + sums['unsupported_compiler_option'],
         'Failures of gulmaat': sums['error_memory']}
print(json.dumps({'calls': sums['calls'], 'facts': facts, 'search': ['source-1999', 11]}))")
    in_browser made made.html "$sums" 30
    "$host" --trace made.log >made.json
    take_verdicts 6 < <(python3 "$top/lib/page/traces.py" made.json 20000 2>&1)
}
