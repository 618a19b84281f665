#!/bin/bash
# The rig's tests: one line for each, last `N passed, M failed`. `make rig-test` builds what it needs and calls it with
# the folder of the programs. RUN is the emulator or nothing, X86_CC the compiler that goes with the library, CASES and SEED
# are the comparison's.
set -u
parts=$(cd "$(dirname "$0")" && pwd)
programs=$(cd "$1" && pwd)

work=$(mktemp -d)
trap 'chmod -R u+w "$work"; rm -rf "$work"' EXIT
chmod 755 "$work"
cd "$work" || exit 2
cp "$programs/bin/rig" "$programs/bin/rig-stopped" .
chmod 755 rig rig-stopped

rig() { ${RUN:-} ./rig "$@"; }
# stopped MOMENT BURST ARGUMENT...: the rig, stopped at this moment; in a shell of its own, so that its word about the kill
# stays out of the log
stopped() {
    local moment=$1 burst=$2
    shift 2
    (echo "$burst" | STOP_AT=$moment ${RUN:-} ./rig-stopped "$@" >answers 2>message; exit "$?") 2>/dev/null
}

passed=0
failed=0
# test_that NAME FUNCTION: the function's output is shown only when it fails
test_that() {
    if "$2" >"$work/log" 2>&1; then
        passed=$((passed + 1))
        echo "ok      $1"
    else
        failed=$((failed + 1))
        echo "FAILED  $1"
        sed 's/^/        /' "$work/log"
    fi
}

# same WHAT GOT WANTED
same() {
    [ "$2" = "$3" ] && return
    printf '%s:\n got     %s\n wanted  %s\n' "$1" "$2" "$3"
    return 1
}

# ends STATUS WORDS COMMAND...: exit status and a part of the message on standard error
ends() {
    local wanted=$1 words=$2 status
    shift 2
    "$@" 2>message </dev/null >/dev/null
    status=$?
    same "status of $*" "$status" "$wanted" || { cat message; return 1; }
    grep -qF -- "$words" message || { echo "message of $*: no '$words' in"; cat message; return 1; }
}

# new_wall FILE PANEL...: made anew
new_wall() { rm -f "$1" && rig new "$@"; }
# a wall of 01's two panels, both in group 9
wall() { new_wall "$1" 1:9 2:9; }
# the same, the second Phoenix
mixed_wall() { new_wall "$1" 1:9 2:9:phoenix; }
# packet ID [GROUP] DATA...: the burst of these bytes, with its size and checksum; on a 1.85 line it has no group
packet() {
    local size=$(($# + 2)) sum byte
    sum=$size
    printf %02X "$size"
    for byte; do
        printf %s "$byte"
        sum=$((sum ^ 0x$byte))
    done
    printf '%02X\n' "$sum"
}
bytes() { od -An -v -tx1 "$1" | tr -d ' \n'; }
# image FILE HEX...: a file of these bytes
image() {
    local file=$1 byte
    shift
    for byte in $*; do printf "\\x$byte"; done >"$file"
}
# image_of FILE HEX: a file of these bytes, in one run of digits
image_of() { image "$1" "$(echo "$2" | sed 's/../& /g')"; }
# in_one_run OPTION...: lines of a burst and its answer, played on w one behind the other
in_one_run() { cat >lines && same answers "$(cut -d' ' -f 1 lines | rig play w "$@")" "$(cut -d' ' -f 2 lines)"; }
# on_fresh_walls OPTION...: lines of a burst and its answer, each on a fresh wall
on_fresh_walls() {
    local burst answer
    while read -r burst answer; do
        wall w && same "$burst" "$(echo "$burst" | rig play w "$@")" "$answer" || return
    done
}
# logged OPTION...: lines of `burst; what it was: answer`, each burst on a fresh wall of both profiles, with a log of its own
logged() {
    local burst words
    while IFS=';' read -r burst words; do
        mixed_wall w && rm -f w.log && echo "$burst" | rig play w "$@" --log w.log >answers || return
        same "the log of $burst" "$(cat w.log)" "1: $burst:$words" || return
    done
}
# stays BURST ANSWER: and w is not written
stays() {
    bytes w >before && touch -d 2001-01-01 w || return
    same "the answer to $1" "$(echo "$1" | rig play w)" "$2" && same 'the setup' "$(bytes w)" "$(cat before)" &&
        same 'its time' "$(stat -c %Y w)" "$(date -d 2001-01-01 +%s)"
}
# refusal_words NUMBER: of an image
refusal_words() {
    case $1 in
    11) echo 'image: fewer than 2 bytes' ;;
    12) echo 'image: last byte is neither 1 nor 2' ;;
    13) echo 'image: panel count above 32' ;;
    14) echo 'image: shorter than 2n + 2 bytes' ;;
    15) echo "image: starts don't fit" ;;
    16) echo 'record: under 2 bytes, in form 2 under 3, ID 0, group 0, ID seen before, or an unknown profile' ;;
    17) echo "field: not a set code of its form (a get code isn't one), or seen before in this record, a kind behind the" \
        'tiling, length wrong, or cut off' ;;
    18) echo 'field: value not allowed' ;;
    esac
}
# setup_of FORM RECORD...: the image of these records
setup_of() {
    local form=$1 record at=0 starts=
    shift
    for record; do
        printf %s "$record"
        starts=$starts$(printf %04x "$at")
        at=$((at + ${#record} / 2))
    done
    printf '%s%02x%02x' "$starts" $# "$form"
}
# field CODE:VALUES...: these fields, each with its length
field() {
    local given values
    for given; do
        values=${given#*:}
        printf '%s%02x%s' "${given%%:*}" $((${#values} / 2)) "$values"
    done
}
# kept HEAD CODE:VALUES...: a record as it is written, fresh by its profile but for these fields
kept() {
    local head=$1 given fresh video=32323232323203
    shift
    case $head in ????01) video=32323205003203 ;; esac
    printf %s "$head"
    for fresh in 01:00 18:02 22:00000101 32:$video 34:01 42:3232 61:01 a3:02 d0:00 dd:00; do
        for given; do [ "${given%%:*}" != "${fresh%%:*}" ] || fresh=$given; done
        field "$fresh"
    done
}
# leaves_files_alone COMMAND: where NEW is there already, also as w itself or as a link to nothing
leaves_files_alone() {
    local new before
    before=$(bytes w) && echo mine >n && rm -f link nowhere && ln -s nowhere link || return
    for new in n w link; do
        ends 2 "rig: $new is there already; remove it first, or give another name" rig "$1" w $new || return
    done
    same 'the file that was there' "$(cat n)" mine && same 'the setup' "$(bytes w)" "$before" && [ ! -e nowhere ]
}
# refused_images: lines of a refusal and the bytes of an image that gets it, from each command
refused_images() {
    local number words hex command commands
    rm -f n
    while read -r number hex; do
        image w "$hex"
        words="rig: w: refusal $number: $(refusal_words "$number")"
        commands=('show w' 'play w' 'scene w -' 'back w n')
        # from 16 on a salvage keeps what it can
        [ "$number" -gt 15 ] || commands+=('salvage w n')
        for command in "${commands[@]}"; do
            ends 1 "$words" rig $command || return
        done
        same "the image refused by $number" "$(bytes w)" "$(echo "$hex" | tr -d ' ')" || return
        [ ! -e n ] || { echo "$hex made a file"; return 1; }
    done
}

for part in comparison live program editions forms power tiling salvage salvage_command keeping scene words log diff install; do
    . "$parts/test_$part.sh" || exit 2
done
comparison_tests
live_tests
echo "$passed passed, $failed failed"
[ "$failed" -eq 0 ]
