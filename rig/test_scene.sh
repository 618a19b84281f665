# Scenes: 02's A9 as a command. Sourced by test.sh, behind the keeping.

# every kind of burst that a line can bring, and all that one byte changed, lost or added makes of a set
all_bursts() {
    packet 01 00 61 04; packet 01 00 62; packet 02 00 18 01; packet 02 00 18 01; packet 02 00 19; packet 00 09 61 02
    packet 01 00 62; packet 00 00 A3 01; packet 02 00 A4; packet 02 00 32 32 32 32 0A CE 32 03; packet 02 00 33
    packet 00 09 32 32 32 32 3C 32 32 03; packet 01 00 33; packet 02 00 33; packet 01 00 22 01 00 02 08
    packet 01 00 22 01 00 06 00; packet 01 00 22 01 00 07 00; packet 01 00 23; packet 01 00; packet 03 00 19
    echo 050100191C; echo 0501; echo 05; spoiled 06 01 00 61 03 65; packet 01 00 62
}
all_bursts_of_1_85() {
    packet 01 61 04; packet 01 62; packet 02 18 01; packet 02 18 01; packet 00 61 02; packet 02 62; packet 01
    echo 0401191D; echo 0501; spoiled 05 01 61 03 67; packet 01 62
}
# one_by_one EDITION: answers, setup and log of the scene are those of the bursts played
one_by_one() {
    mixed_wall w && cp w played && rm -f w.log played.log || return
    rig play played --sicp "$1" --log played.log <bursts >answers && rig scene w bursts --sicp "$1" --log w.log >scene_answers || return
    cmp answers scene_answers && cmp played w && cmp played.log w.log
}
as_played_one_by_one() {
    all_bursts >bursts && one_by_one 2.01 && all_bursts_of_1_85 >bursts && one_by_one 1.85
}

# Two rooms on one line (02, A10): panel 1 of group 8, and panel 2 of group 9, whose bursts are in the files one and two.
# mixed ORDER: their bursts, each room's in its own order, as ORDER has 1 and 2
mixed() {
    local room burst
    exec 3<one 4<two
    for room in $(echo "$1" | fold -w 1); do
        read -r burst <&$((room + 2)) && echo "$burst"
    done
    exec 3<&- 4<&-
}
# those of the answers that are a room's
answers_to() { paste -d ' ' <(echo "$1" | fold -w 1) answers | sed -n "s/^$2 //p"; }
two_rooms() {
    { packet 01 00 61 04; packet 00 08 A3 01; echo 05010019; packet 01 00 22 01 00 02 08; packet 01 00 62; } >one
    { packet 02 00 18 01; packet 00 09 61 02; packet 02 00 18 01; packet 02 00 62; echo 0502; } >two
    new_wall w 1:8 2:9 && cp w first && cp w second && rig scene first one >alone_1 && rig scene second two >alone_2 || return
    rig scene first two >/dev/null && rig scene second one >/dev/null && cmp first second || return
    local order
    for order in 1111122222 2222211111 1212121212 2112212121 1221112221; do
        mixed $order >bursts && cp w both && rig play both <bursts >answers && cmp first both || return
        same "to the first room, $order" "$(answers_to $order 1)" "$(cat alone_1)" &&
            same "to the second room, $order" "$(answers_to $order 2)" "$(cat alone_2)" || return
    done
}

# What is left out, in every place; the numbers of the log are those of the file's lines.
comments_and_empty_lines() {
    printf '%s\n' '# closing' '' '05 01 00 19 1d # power?' ' ' $'\t# 06 01 00 61 04 62' $'\t060100610462\r' '#' \
        '06 00 09 61 02 6C#group 9' $'\r' >night && printf '0501006266 ## fan?' >>night || return
    wall w && rm -f w.log && rig scene w night --log w.log >answers 2>message || return
    same answers "$(cat answers)" "$(printf '06010019021C\n060100000601\n-\n060100620267')" && says '' || return
    same 'the log' "$(cat w.log)" "\
3: 05 01 00 19 1D: ID 1, group 0, get power: report from panel 1, power on
6: 06 01 00 61 04 62: ID 1, group 0, set fan 4: ACK from panel 1
8: 06 00 09 61 02 6C: ID 0, group 9, set fan 2: silence
10: 05 01 00 62 66: ID 1, group 0, get fan: report from panel 1, fan 2"
}

log_of_damages() {
    printf '%s\n' 0501 05010019 050100191C "29$(printf '%080d' 0)" 030102 >night && wall w && rm -f w.log || return
    rig scene w night --log w.log >answers || return
    same 'the log' "$(cut -d: -f 1,3- w.log)" "\
1: too short, 2 bytes and a packet has at least 4: silence
2: size differs from the count, the first byte says 5 and 4 bytes came: NACK from panel 1
3: checksum wrong, the last byte is 1C and the others give 1D: NACK from panel 1
4: too long, 41 bytes and a packet has at most 40: silence
5: too short, 3 bytes and a packet has at least 4: silence" || return
    echo 030102 >night && rm w.log && rig scene w night --sicp 1.85 --log w.log >answers || return
    same 'the log on 1.85' "$(cat w.log)" '1: 03 01 02: SICP 1.85, ID 1, no data: NAV from panel 1'
}

# old_wall: a fresh one whose bytes and time are known; not_written: and are the same
old_wall() { wall w && bytes w >before && touch -d 2001-01-01 w; }
not_written() {
    same 'the setup' "$(bytes w)" "$(cat before)" && same 'its time' "$(stat -c %Y w)" "$(date -d 2001-01-01 +%s)"
}
# nothing_played COMMAND...: status 2, no answer, no log, and the setup is not written
nothing_played() {
    old_wall && rm -f w.log || return
    "$@" >answers 2>message
    same "status of $*" $? 2 && same answers "$(cat answers)" '' || { cat message; return 1; }
    not_written && [ ! -e w.log ]
}
# says WORDS: the whole message
says() { same message "$(cat message)" "$1"; }

a_bad_line() {
    local line place words='a burst has two hex digits for each byte, and spaces only between bytes; a comment begins with #; no burst was played; mend the line and play the scene again'
    while IFS=';' read -r place line; do
        printf '060100610462\n\n# two\n%s\n060100610166\n' "$line" >night
        nothing_played rig scene w night --log w.log && says "rig: night, line 4, place $place: $words" || return
    done <<'END'
5;05 0x
2;0
5;05 0 1
1;hello
13;050100191D 5
3;05;# no
3;05// no
END
    printf '06 01 00 61 04 62\nno' >night && nothing_played rig scene w night && says "rig: night, line 2, place 1: $words" || return
    printf 'no\n060100610462\n' | nothing_played rig scene w - && says "rig: standard input, line 1, place 1: $words" || return
    printf '060100610462\n0501\00000191D\n' >night && nothing_played rig scene w night && says "rig: night, line 2, place 5: $words"
}

# The count of a list has 255 for its most.
long_bursts() {
    local words='byte 256 of a burst, and in a scene it has at most 255; no burst was played; end the line before it, or play the burst with rig play'
    { echo 060100610462; printf '050100%0504d # 255\n' 0; echo 0501006266; } >night && wall w || return
    same '255 bytes' "$(rig scene w night)" "$(printf '060100000601\n060100001512\n060100620461')" || return
    { echo 060100610462; printf '050100%0506d\n' 0; } >night && nothing_played rig scene w night --log w.log &&
        says "rig: night, line 2, place 511: $words" || return
    { echo 060100610462; printf '050100%0506d\n' 0 | sed 's/../& /g'; } >night && nothing_played rig scene w night &&
        says "rig: night, line 2, place 766: $words"
}

# twenty_sets: a scene, with what it makes of the wall of the keeping's tests
twenty_sets() {
    fan_2_kept && cp stopped/w wanted || return
    local value
    for value in 0 1 2 3 4; do
        packet 01 00 61 0$value; packet 02 00 61 0$value; packet 00 09 34 0${value/2/9}; packet 02 00 D0 0$((value % 4))
    done >night
    rig play wanted <night >wanted_answers
}
# scene_stopped MOMENT STATUS
scene_stopped() {
    twenty_sets && stopped "$1" '' scene stopped/w night
    same "status when $1" $? "$2"
}
all_of_it() { same 'the setup' "$(bytes stopped/w)" "$(bytes wanted)"; }
not_answered() { same answers "$(cat answers)" ''; }
all_answered() { cmp answers wanted_answers && all_of_it && nothing_beside; }
# a play of the same bursts is killed there
kept_once() {
    scene_stopped never 0 && all_answered && scene_stopped killed-in-second-keep 0 && all_answered && twenty_sets || return
    stopped killed-in-second-keep "$(cat night)" play stopped/w
    same 'status of play' $? 137
}
scene_killed() {
    local moment
    for moment in killed-in-write killed-before-sync killed-before-rename; do
        scene_stopped $moment 137 && old_setup_whole && sets_as_before || return
    done
    scene_stopped killed-after-rename 137 && all_of_it && not_answered && sets_as_before
}
scene_not_kept() {
    local moment
    for moment in no-space sync-fails rename-fails; do
        scene_stopped $moment 2 && grep -q '^rig: stopped/w: cannot .*; it is as it was$' message && old_setup_whole &&
            nothing_beside || return
    done
    scene_stopped folder-sync-fails 2 && grep -q 'has the new setup' message && all_of_it && not_answered
}

# sets there and back, gets and damage
written_if_changed() {
    printf '%s\n' 060100610462 06000961026C 060100610167 060200610164 0501006266 050100191C >night
    old_wall && same answers "$(rig scene w night)" "$(printf '060100000601\n-\n060100000601\n060200000602\n060100620164\n060100001512')" &&
        not_written
}

# Log and answers in one file: all lines, then all answers.
log_before_answers() {
    twenty_sets && rm -f w.log && rig scene stopped/w night --log w.log >answers && same 'lines of the log' "$(wc -l <w.log)" 20 || return
    fan_2_kept && : >both && rig scene stopped/w night --log both >>both && same 'the file' "$(cat both)" "$(cat w.log answers)"
}
scene_log_is_full() {
    twenty_sets && rig scene stopped/w night --log /dev/full >answers 2>message
    same status $? 2 && says 'rig: cannot write to the log /dev/full: No space left on device; all of the scene was played, but its answers are held back; make room for the log, or name another' &&
        not_answered && all_of_it
}
logs_of_no_scene() {
    echo 060100610462 >night && mkdir -p folder && rm -f link && ln -s night link || return
    nothing_played rig scene w night --log folder &&
        grep -q 'cannot open the log folder: Is a directory; no burst was played' message || return
    nothing_played rig scene w night --log w && says 'rig: the log w is the setup w itself; give the log a file of its own' || return
    nothing_played rig scene w night --log link &&
        says 'rig: the log link is the scene night itself; give the log a file of its own' || return
    nothing_played rig scene w link --log night && same 'the scene' "$(cat night)" 060100610462
}

# Another rig has the setup, from before its first answer to the end of its input.
held_by_another() {
    echo 0501006266 >gets && printf '0501006266\n060100610462\n0501006266\n' >night && old_wall || return
    coproc HOLDER { rig play w 2>/dev/null; }
    local holder=$HOLDER_PID to=${HOLDER[1]} line status
    echo 050100191D >&"$to" && read -r line <&"${HOLDER[0]}"
    same 'a scene that changes nothing' "$(rig scene w gets)" 060100620164 &&
        ends 2 'rig: w is taken: another rig is at work on it' rig scene w night &&
        same 'the answers of one that would' "$(rig scene w night 2>/dev/null)" '' && not_written
    status=$?
    exec {to}>&-
    wait "$holder"
    [ "$status" -eq 0 ] && same 'when it is free' "$(rig scene w night)" "$(printf '060100620164\n060100000601\n060100620461')"
}

ways_to_name_it() {
    printf '060100610462\n0501006266\n' >night && rm -f link && ln -s night link || return
    local wanted
    wanted=$(printf '060100000601\n060100620461')
    wall w && same 'standard input' "$(rig scene w - <night)" "$wanted" && wall w &&
        same 'a pipe' "$(cat night | rig scene w -)" "$wanted" && wall w &&
        same 'a pipe with a name' "$(rig scene w <(cat night))" "$wanted" && wall w && same 'a link' "$(rig scene w link)" "$wanted"
}

# what is not there, is no file, is too large, or is being written
no_scene() {
    local large='over 1048576 bytes; a scene has at most that; no burst was played; play it in parts'
    mkdir -p folder && rm -f missing || return
    nothing_played rig scene w missing --log w.log && says 'rig: cannot read missing: No such file or directory' || return
    nothing_played rig scene w folder --log w.log && says 'rig: cannot read folder: Is a directory' || return
    nothing_played rig scene w /dev/zero && says "rig: /dev/zero: $large" || return
    { echo 0501006266; head -c 1048565 /dev/zero | tr '\0' ' '; } >night && wall w || return
    same '1,048,576 bytes' "$(rig scene w night)" 060100620164 && echo >>night && nothing_played rig scene w night &&
        says "rig: night: $large" || return
    echo 060100610462 >night
    STOP_AT=written-while-read STOP_UNTIL=night nothing_played ${RUN:-} ./rig-stopped scene w night &&
        says 'rig: night was written to while it was read; no burst was played; play it when it is whole'
}
an_empty_scene() {
    printf '\n# nothing today\n' >night && old_wall && rig scene w night >answers 2>message || return
    says 'rig: night has no bursts, so nothing is played' && not_answered && not_written &&
        ends 0 'rig: standard input has no bursts' rig scene w -
}

outputs_of_a_scene() {
    local closed
    echo 060100610462 >night
    for closed in '>&-' '2>&-' '>&- 2>&-'; do
        wall w && rm -f w.log && eval "rig scene w night --log w.log $closed" || return
        same "the log with $closed" "$(cat w.log)" '1: 06 01 00 61 04 62: ID 1, group 0, set fan 4: ACK from panel 1' || return
    done
    wall w && rm -f w.log && rig scene w night --log w.log >/dev/full 2>message
    same 'status without room for the answers' $? 2 && says 'rig: cannot write to standard output: No space left on device' &&
        same 'lines then' "$(wc -l <w.log)" 1 && same 'the fan then' "$(echo 0501006266 | rig play w)" 060100620461
}

scene_arguments() {
    wall w && echo 0401191C >night && rm -f w.log || return
    local arguments
    for arguments in '' w 'w night night' 'w night --log' 'w --log w.log' 'w --log w.log night' '--log w.log w night' \
        'w night --lag w.log' 'w night --log w.log --log w.log' 'w night --sicp 1.85 --sicp 1.85'; do
        ends 2 'rig: scene takes an IMAGE and a SCENE, and then --sicp EDITION and --log FILE where they are wanted' \
            rig scene $arguments || return
    done
    ends 2 'rig: 1.8 is no edition of SICP that the box speaks; give 1.85 or 2.01' rig scene w night --sicp 1.8 --log w.log &&
        [ ! -e w.log ] || return
    same 'in front of the log' "$(rig scene w night --sicp 1.85 --log w.log)" 050119021F &&
        same 'behind the log' "$(rig scene w night --log w.log --sicp 1.85)" 050119021F &&
        same 'on 2.01' "$(rig scene w night)" - && same 'lines' "$(wc -l <w.log)" 2
}

test_that 'a scene is its bursts played one by one, on both editions' as_played_one_by_one
test_that 'two rooms on one line, in five orders' two_rooms
test_that 'comments and empty lines of a scene, and the numbers in its log' comments_and_empty_lines
test_that 'the damages in the log of a scene' log_of_damages
test_that 'a scene with a line that is not hex: nothing is played' a_bad_line
test_that 'bursts of 255 bytes in a scene, and of 256' long_bursts
test_that 'a scene of many sets is kept once' kept_once
test_that 'a scene killed at each moment: the old setup, or all of the new one' scene_killed
test_that 'a scene that cannot be kept: the old setup' scene_not_kept
test_that 'a scene that ends as it began is not written' written_if_changed
test_that 'all lines of the log come before the answers of a scene' log_before_answers
test_that 'a log that is full, of a scene' scene_log_is_full
test_that 'logs that a scene cannot have' logs_of_no_scene
test_that 'a scene on a setup that another rig has' held_by_another
test_that 'a scene from standard input, a pipe and a link' ways_to_name_it
test_that 'files that are no scene' no_scene
test_that 'a scene without bursts' an_empty_scene
test_that 'the outputs of a scene, closed and full' outputs_of_a_scene
test_that 'arguments of a scene' scene_arguments
