# The log as a file. Sourced by test.sh.

one_log_for_many_runs() {
    wall w && echo 'cabinet 7' >w.log || return
    printf '050100191D\n\n' | rig play w --log w.log >answers && rig play w --log w.log </dev/null &&
        printf '060100610462\n0501' | rig play w --log w.log >answers || return
    cat >wanted <<'END'
cabinet 7
1: 05 01 00 19 1D: ID 1, group 0, get power: report from panel 1, power on
2: -: no bytes: silence
1: 06 01 00 61 04 62: ID 1, group 0, set fan 4: ACK from panel 1
2: 05 01: too short, 2 bytes and a packet has at least 4: silence
END
    cmp w.log wanted || { cat w.log; return 1; }
}

# A line without its end, as a full disk or a power cut may leave it
a_line_that_was_cut_off() {
    wall w && printf '1: 05 01 00' >w.log && printf '0501\n0502\n' | rig play w --log w.log >answers || return
    same 'the log' "$(cat w.log)" "1: 05 01 00
1: 05 01: too short, 2 bytes and a packet has at least 4: silence
2: 05 02: too short, 2 bytes and a packet has at least 4: silence"
}

the_log_changes_nothing_else() {
    { packet 01 00 19; packet 02 09 61 03; packet 01 00 18 01; packet 01 00 61 05; echo; echo 0501006267; echo 05; } >bursts
    wall without && rig play without <bursts >answers && wall w && rig play w --log w.log <bursts >with_log || return
    cmp answers with_log && cmp without w || return
    touch -d 2001-01-01 w
    printf '050100191D\n060100610563\n' | rig play w --log w.log >answers || return
    same 'time of the setup' "$(stat -c %Y w)" "$(date -d 2001-01-01 +%s)"
}

# refused_log FILE WORDS: with this log nothing is played
refused_log() {
    bytes w >before
    echo 060100610462 | rig play w --log "$1" >answers 2>message
    same "status with the log $1" $? 2 && grep -qxF -- "$2" message || { cat message; return 1; }
    same answers "$(cat answers)" '' && same 'the setup' "$(bytes w)" "$(cat before)"
}
a_log_that_cannot_be_opened() {
    local what='no burst was played; name a file that can be written to'
    wall w && mkdir -p folder || return
    refused_log folder "rig: cannot open the log folder: Is a directory; $what" &&
        refused_log missing/log "rig: cannot open the log missing/log: No such file or directory; $what" &&
        refused_log w/log "rig: cannot open the log w/log: Not a directory; $what"
}
a_log_that_is_the_setup() {
    wall w && rm -f link hard && ln -s w link && ln w hard || return
    local log
    for log in w ./w link hard; do
        refused_log $log "rig: the log $log is the setup w itself; give the log a file of its own" || return
    done
    rig play link --log w </dev/null 2>message
    same 'status with a link for the setup' $? 2 || return
    grep -qxF 'rig: the log w is the setup link itself; give the log a file of its own' message || { cat message; return 1; }
    same 'the setup' "$(bytes w)" "$(cat before)"
}

no_log_of_a_setup_that_is_refused() {
    rm -f w.log && image w 00 00 && ends 1 'refusal 12' rig play w --log w.log && ends 2 'there is no missing' rig play missing \
        --log w.log && [ ! -e w.log ]
}

log_arguments() {
    wall w && rm -f w.log || return
    local arguments
    for arguments in 'w --log' '--log w.log w' 'w --lag w.log' 'w w.log' 'w --log w.log w' '--log w.log' \
        'w --log w.log --log w.log'; do
        ends 2 'rig: play takes one IMAGE, and then --sicp EDITION and --log FILE where they are wanted' rig play $arguments ||
            return
    done
    ends 2 'rig: show takes one IMAGE' rig show w --log w.log && [ ! -e w.log ]
}

# The set is kept and no answer printed; the burst behind it is not played.
a_log_that_is_full() {
    wall w || return
    printf '060100610462\n060100610365\n' | rig play w --log /dev/full >answers 2>message
    same status $? 2 || return
    same message "$(cat message)" 'rig: cannot write to the log /dev/full: No space left on device; the burst of line 1 was played, but its answer is held back; make room for the log, or name another' ||
        return
    same answers "$(cat answers)" '' && same 'the fan' "$(echo 0501006266 | rig play w)" 060100620461
}

# cut_off_by MOMENT STATUS: the line is half written, no answer is printed, the next run begins on a line of its own
cut_off_by() {
    wall w && rm -f w.log || return
    stopped "$1" 0501006266 play w --log w.log
    same "status when $1" $? "$2" || return
    same answers "$(cat answers)" '' || return
    local line='1: 05 01 00 62 66: ID 1, group 0, get fan: report from panel 1, fan 1' half
    half=${line:0:(${#line} + 1) / 2}
    same 'half of the line' "$(cat w.log)" "$half" && echo 0501006266 | rig play w --log w.log >answers || return
    same 'the log' "$(cat w.log)" "$half
$line"
}
cut_off_in_a_line() { cut_off_by no-space 2 && grep -q 'No space left' message && cut_off_by killed-in-write 137; }

# logged_after MOMENT LINES ANSWER: what is logged and printed where the program is stopped while it keeps a setup
logged_after() {
    wall w && rm -f w.log || return
    stopped "$1" 060100610462 play w --log w.log
    same "lines after $1" "$(wc -l <w.log)" "$2" && same 'the answer' "$(cat answers)" "$3"
}
after_the_setup_and_before_the_answer() {
    logged_after never 1 060100000601 && logged_after rename-fails 0 '' && logged_after killed-after-rename 0 '' &&
        logged_after folder-sync-fails 0 '' || return
    wall w && rm -f w.log && echo 060100610462 | rig play w --log w.log >/dev/full 2>message
    same 'status without room for the answer' $? 2 && same 'lines then' "$(wc -l <w.log)" 1
}

the_lines_before_one_that_is_not_hex() {
    wall w && rm -f w.log || return
    printf '0501\n05 0x\n0502\n' | rig play w --log w.log >answers 2>message
    same status $? 2 && same 'the log' "$(cat w.log)" '1: 05 01: too short, 2 bytes and a packet has at least 4: silence'
}

test_that 'one log for many runs' one_log_for_many_runs
test_that 'a log with a line that was cut off' a_line_that_was_cut_off
test_that 'answers and setup are the same with a log' the_log_changes_nothing_else
test_that 'a log that cannot be opened' a_log_that_cannot_be_opened
test_that 'a log that is the setup' a_log_that_is_the_setup
test_that 'no log of a setup that is refused' no_log_of_a_setup_that_is_refused
test_that 'arguments of the log' log_arguments
test_that 'a log that is full' a_log_that_is_full
test_that 'cut off in a line of the log' cut_off_in_a_line
test_that 'a line is logged after the setup is kept, before the answer' after_the_setup_and_before_the_answer
test_that 'the log of the lines before one that is not hex' the_lines_before_one_that_is_not_hex
