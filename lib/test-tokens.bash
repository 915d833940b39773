# shellcheck shell=bash disable=SC2086,SC2154
# Headers that aren't read again as long as they are in the state that they had: a part of bin/test-builds, whose host, work and functions it uses.

# Calls until the header is known by its state, makes a change, and calls again: each call is as by the compiler alone. The last words say what
# the call after the change is: so many hits by text, compiles and direct hits.
token_case() {
    local name=$1 change=$2 wanted=$3 cc=$4 turn
    "$host" --clear
    printf '#define VALUE 1\n' >value.h
    touch -d '1 hour ago' value.h
    settle
    for turn in first second third; do
        search_call "$name, $turn" $cc -I.
        settle
    done
    eval "$change"
    settle
    mark
    search_call "$name" $cc -I.
    is "$name: what it is" since $wanted
    search_call "$name, again" $cc -I.
}

# A header that the call of one source noted is changed before another source takes it in, and then is as at first again: each call is as by the
# compiler alone.
shared_case() {
    local name=$1 change=$2 cc=$3 turn
    "$host" --clear
    printf '#define VALUE 1\n' >value.h
    touch -d '1 hour ago' value.h
    printf '#include <value.h>\nint one = VALUE;\n' >it.c
    settle
    search_call "$name, one source" $cc -I.
    settle
    eval "$change"
    printf '#include <value.h>\nint other = VALUE;\n' >it.c
    settle
    for turn in first second third; do
        [ $turn != third ] || mark
        search_call "$name, another source, $turn" $cc -I.
        settle
    done
    is "$name: a direct hit" since 0 0 1
    printf '#define VALUE 1\n' >value.h
    settle
    search_call "$name, as at first" $cc -I.
}

# The sums of all manifests.
manifests_now() { find "$GULMAAT_DIR/manifests" -type f -exec sha256sum {} + | sort; }

# All folders change, as by a checkout: the first hit after that looks at names, and notes the folders' states, so that the next one needs no look.
renewed_case() {
    local cc=$1 number words= before after
    "$host" --clear
    mkdir -p many
    printf '#define VALUE 1\n' >many/value.h
    for number in $(seq 12); do
        mkdir -p many/$number
        words="$words -Imany/$number"
    done
    printf '#include <value.h>\nint it = VALUE;\n' >it.c
    settle
    search_call "$cc: many folders" $cc $words -Imany
    settle
    search_call "$cc: many folders, a hit" $cc $words -Imany
    for number in $(seq 12); do echo >many/$number/new.h; done
    settle
    before=$(manifests_now)
    mark
    search_call "$cc: many folders changed" $cc $words -Imany
    is "$cc: many folders changed: a direct hit" since 0 0 1
    after=$(manifests_now)
    is "$cc: many folders changed: noted" [ "$before" != "$after" ]
    settle
    search_call "$cc: many folders, as they are noted" $cc $words -Imany
    is "$cc: many folders, as they are noted: nothing is written" [ "$after" = "$(manifests_now)" ]
    printf '#define VALUE 2\n' >many/7/value.h
    search_call "$cc: many folders, a header before the other one" $cc $words -Imany
    rm many/7/value.h
    search_call "$cc: many folders, that header gone" $cc $words -Imany
    rm -r many
}

# The sums of what is kept of where a compiler looks, and of headers.
searches_now() { find "$GULMAAT_DIR/searches" -type f -exec sha256sum {} + | sort; }

# All headers are in other states, as after a checkout: the first source's hit notes them for the other one, which needn't read them.
checkout_case() {
    local cc=$1 number source before after
    "$host" --clear
    mkdir -p checkout
    for number in $(seq 20); do printf '#define V%d %d\n' $number $number >checkout/$number.h; done
    for number in $(seq 20); do printf '#include "%d.h"\n' $number; done >checkout/all.h
    printf '#include <all.h>\nint one = V7;\n' >it.c
    cp it.c one.c
    printf '#include <all.h>\nint other = V7;\n' >other.c
    settle
    for number in 1 2; do
        for source in one other; do "$host" $cc -Icheckout -c $source.c -o $source.o; done
        settle
    done
    touch checkout/*.h
    settle
    before=$(searches_now)
    mark
    "$host" $cc -Icheckout -c one.c -o one.o
    after=$(searches_now)
    is "$cc: after a checkout: noted for others" [ "$before" != "$after" ]
    "$host" $cc -Icheckout -c other.c -o other.o
    is "$cc: after a checkout: direct hits" since 0 0 2
    is "$cc: after a checkout: nothing is noted twice" [ "$after" = "$(searches_now)" ]
    $cc -Icheckout -c other.c -o plain.o
    is "$cc: after a checkout: object" cmp -s plain.o other.o
    # A header with other contents, and one that was only touched: the contents count.
    touch checkout/*.h
    printf '#define V7 8\n' >checkout/7.h
    settle
    "$host" $cc -Icheckout -c one.c -o one.o
    "$host" $cc -Icheckout -c other.c -o other.o
    $cc -Icheckout -c other.c -o plain.o
    is "$cc: after a checkout, another header: object" cmp -s plain.o other.o
    rm -r checkout
}

tokens() {
    local cc=$1 dir=$work/tokens-$1 other
    mkdir -p "$dir"
    cd "$dir" || return
    renewed_case $cc
    checkout_case $cc
    printf '#include <value.h>\nint value = VALUE;\n' >it.c
    token_case "$cc: as it was" "true" "0 0 1" $cc
    token_case "$cc: touched" "touch value.h" "0 0 1" $cc
    token_case "$cc: another one of its size and time" "echo '#define VALUE 2' >new.h; touch -r value.h new.h; mv new.h value.h" "0 1 0" $cc
    token_case "$cc: written over, and its time put back" "touch -r value.h time; echo '#define VALUE 3' >value.h; touch -r time value.h" "0 1 0" $cc
    token_case "$cc: a byte written, and its time put back" \
        "touch -r value.h time; printf 4 | dd of=value.h bs=1 seek=14 conv=notrunc status=none; touch -r time value.h" "0 1 0" $cc
    token_case "$cc: taken away and put back" "mv value.h aside.h; mv aside.h value.h" "0 0 1" $cc
    token_case "$cc: a link to one of its size and time" \
        "mkdir -p linked; echo '#define VALUE 5' >linked/value.h; touch -r value.h linked/value.h; ln -sf linked/value.h value.h" "0 1 0" $cc
    rm -f value.h
    # On another device.
    other=$(mktemp -d -p /dev/shm 2>/dev/null) || other=
    if [ -n "$other" ]; then
        token_case "$cc: on another device" \
            "echo '#define VALUE 6' >$other/value.h; touch -r value.h $other/value.h; ln -sf $other/value.h value.h" "0 1 0" $cc
        rm -rf "$other" value.h
    fi
    shared_case "$cc: noted by another source" "true" $cc
    shared_case "$cc: noted by another source, another one of its size and time" \
        "echo '#define VALUE 2' >new.h; touch -r value.h new.h; mv new.h value.h" $cc
    shared_case "$cc: noted by another source, its time put back" \
        "touch -r value.h time; echo '#define VALUE 3' >value.h; touch -r time value.h" $cc
    rm -f value.h
    printf '#include <value.h>\nint value = VALUE;\n' >it.c
    # A header from the future, as where the clock was set back since: it can't be told from one that changes within this moment.
    printf '#define VALUE 1\n' >value.h
    touch -d 'next year' value.h
    touch -r value.h time
    search_none "$cc: a header from the future" $cc -I.
    echo '#define VALUE 7' >value.h
    touch -r time value.h
    search_call "$cc: a header from the future, written over" $cc -I.
    search_call "$cc: a header from the future, written over, again" $cc -I.
    cd "$work" || return
}
