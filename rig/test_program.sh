# The program by example. Sourced by test.sh.

# 01, "Bursts to try"
bursts_of_01() {
    on_fresh_walls <<'END'
050100191D 06010019021C
050100191C 060100001512
0401191C -
060100610462 060100000601
060100610563 06010000181F
06000961026C -
0601FF61029B -
030100 060100001512
050300191F -
04010005 06010000181F
END
}

one_session() {
    wall w
    same answers "$(printf '05 01 00 19 1D\n06 00 09 61 02 6C\n05 02 00 62 65\n04 01 19 1C\n' | rig play w)" \
        "$(printf '06010019021C\n-\n060200620264\n-')"
}

show_names_the_settings() {
    new_wall w 1:9 200:255 && printf '06010018011E\n0C010032643264000164036B\n' | rig play w >answers || return
    same answers "$(cat answers)" "$(printf '060100000601\n060100000601')" || return
    same show "$(rig show w)" "\
 ID  group  profile   kind  power                    video  gamma  colour temperature  treble  bass  fan  cold start  APM  power saving
  1      9  general    5x5    off       100 50 100 0 1 100      3                   1      50    50    1           2    0             0
200    off  general    5x5     on        50 50 50 50 50 50      3                   1      50    50    1           2    0             0

 ID  tiling  frame compensation              wall                 position
  1     off                 off    1 wide, 1 high      1 (column 1, row 1)
200     off                 off    1 wide, 1 high      1 (column 1, row 1)
2 panels, form 2"
}

new_is_written_whole() {
    new_wall w 7:255 || return
    same bytes "$(bytes w)" 07ff0001010018010222040000010132073232323232320334010142023232610101a30102d00100dd010000000102 || return
    new_wall w && same 'no panels' "$(bytes w)" 0002 || return
    new_wall w $(seq -f '%g:9' 1 32) && same 'length of 32' "$(wc -c <w)" 1442
}

input_forms() {
    wall w
    same 'spaces, tabs, lower case, CR, no last line end' \
        "$(printf ' 05 01 00 19 1d \n\t0501\t00191D\r\n \n\n050100191D' | rig play w)" \
        "$(printf '06010019021C\n06010019021C\n-\n-\n06010019021C')" || return
    same 'no input' "$(rig play w </dev/null)" ''
}

any_length() {
    wall w
    same '40 bytes' "$(printf '28010019%070d%02X\n' 0 $((0x28 ^ 0x01 ^ 0x19)) | rig play w)" 06010000181F || return
    same '41 bytes' "$(printf '29010019%072d%02X\n' 0 $((0x29 ^ 0x01 ^ 0x19)) | rig play w)" 060100001512 || return
    same '100,000 bytes' "$({ printf 050100; head -c 199994 /dev/zero | tr '\0' 0; } | rig play w)" 060100001512
}

not_hex() {
    local line
    wall w
    for line in '05 0x' 0 '05 0 1' 'hello' '050100191D 5'; do
        printf '060100610462\n%s\n060100610166\n' "$line" >input
        rig play w <input >answers 2>message
        same "status at $line" $? 2 || return
        grep -q 'line 2,' message || { cat message; return 1; }
        same 'answers before it' "$(cat answers)" 060100000601 || return
    done
    same 'the set before it is kept' "$(echo 0501006266 | rig play w)" 060100620461
}

bad_arguments() {
    wall w
    ends 2 'no command' rig && ends 2 'is no command' rig paly w && ends 2 'one IMAGE' rig play && ends 2 usage rig show &&
        ends 2 'one IMAGE' rig play w w && ends 2 'one IMAGE' rig show w w && ends 2 'IMAGE and then panels' rig new &&
        ends 2 'a NEW file' rig back w && ends 2 'a NEW file' rig back w n n && [ ! -e n ] &&
        ends 2 'a NEW file' rig salvage w && ends 2 'a NEW file' rig salvage w n n && [ ! -e n ] || return
    local panel
    for panel in 1 1: :1 1:256 256:1 a:1 1:a 1:1: -1:1 99999999999999999999:1 '' 1:9:general 1:9:Phoenix 1:9:phoenix: \
        1:9:phoenixes 1:9:phoeni 1:9phoenix 1:phoenix :phoenix 1:9:1 1:9:5x5 1:9:15x1 1:9:15x100 1:9:15X10 1:9:10x15 \
        1:9:15x10: 1:9:15x10:phoenix 1:9:15x10:15x10 1:9:phoenix15x10 1:9:phoenix:5x5 1:9:phoenix:phoenix 1:9::15x10; do
        ends 2 "rig: $panel is not ID:GROUP[:phoenix][:15x10]; ID and GROUP are decimal" rig new n "$panel" && [ ! -e n ] ||
            return
    done
    ends 2 'at most 32' rig new n $(seq -f '%g:9' 1 33) && [ ! -e n ] || return
    ends 2 'there already' rig new w 1:9
}

unreadable_files() {
    mkdir -p folder
    ends 2 'rig new missing' rig play missing && ends 2 'rig new missing' rig show missing &&
        ends 2 'rig new missing' rig back missing n && ends 2 'rig new missing' rig salvage missing n &&
        ends 2 'Is a directory' rig show folder && ends 2 'Is a directory' rig play folder &&
        ends 2 'Is a directory' rig salvage folder n && ends 2 'No such file' rig new missing/w 1:9
}

refusals_by_number() {
    refused_images <<'END'
11
11 01
12 00 00
12 00 03
12 00 ff
13 21 01
13 21 02
14 00 01 01
15 00 00 01
15 01 09 00 02 01 01
16 00 09 00 00 01 01
16 01 09 01 09 00 00 00 02 02 01
16 01 09 00 00 01 02
16 01 09 02 00 00 01 02
16 01 09 ff 00 00 01 02
16 01 09 61 01 04 00 00 01 02
16 01 09 00 01 09 01 00 00 00 03 02 02
17 01 09 62 01 04 00 00 01 01
17 01 09 61 00 00 01 01
17 01 09 00 61 01 04 00 00 01 01
17 01 09 01 62 01 04 00 00 01 02
18 01 09 61 01 05 00 00 01 01
18 01 09 01 32 07 32 32 32 3c 00 32 03 00 00 01 02
18 01 09 01 32 07 32 32 32 05 80 32 03 00 00 01 02
18 01 09 00 32 07 32 32 32 05 ce 32 03 00 00 01 02
18 01 09 32 07 32 32 32 05 ce 32 03 00 00 01 01
END
}

new_names_the_bad_panel() {
    local panels words
    rm -f n
    while IFS=';' read -r panels words; do
        ends 1 "rig: n: refusal 16: $words" rig new n $panels || return
        same "lines about $panels" "$(wc -l <message)" 1 || return
        [ ! -e n ] || { echo "$panels made a file"; return 1; }
    done <<'END'
0:9;0:9 has ID 0; IDs are 1 to 255
1:0;1:0 has group 0; groups are 1 to 255, and 255 is group off
1:9 1:8;1:8 has the ID of 1:9; each panel has an ID of its own
0:0;0:0 has ID 0
1:9 0:8 1:7;0:8 has ID 0
1:9 2:0 0:8;2:0 has group 0
3:9 1:8 2:9 1:7 0:9;1:7 has the ID of 1:8
1:9 1:0;1:0 has group 0
1:9 2:9 01:9;01:9 has the ID of 1:9
1:9 0:9:phoenix;0:9:phoenix has ID 0
1:9:phoenix 2:0:phoenix;2:0:phoenix has group 0
1:9 1:9:phoenix;1:9:phoenix has the ID of 1:9
1:9:15x10 1:8;1:8 has the ID of 1:9:15x10
1:9 2:0:phoenix:15x10;2:0:phoenix:15x10 has group 0
END
}

# In a shell of its own with a bound on memory, so that a program that reads on fails at once.
files_that_are_too_big() (
    local command words='over 65536 bytes; a setup image has at most 1442'
    head -c 65537 /dev/zero >over
    head -c 65536 /dev/zero >within
    ulimit -v 1000000
    for command in show play; do
        ends 1 "rig: over: $words" rig $command over &&
            ends 1 'rig: within: refusal 12: image: last byte is neither 1 nor 2' rig $command within || return
    done
    ends 1 "rig: /dev/zero: $words" rig show /dev/zero || return
    same 'left of 200,000 bytes' "$(head -c 200000 /dev/zero | { rig show /dev/stdin 2>message; wc -c; })" $((200000 - 65537))
)

output_that_is_full() {
    wall w
    rig show w >/dev/full 2>message
    same 'status of show' $? 2 && grep -q 'standard output' message
}

# What is printed never goes to a file that was opened in its place.
closed_descriptors() {
    local closed
    for closed in '>&-' '2>&-' '>&- 2>&-'; do
        wall w && rm -f w.log && echo 0501006266 | eval "rig play w --log w.log $closed" || return
        same "the log with $closed" "$(cat w.log)" '1: 05 01 00 62 66: ID 1, group 0, get fan: report from panel 1, fan 1' || return
    done
    wall w && rm -f w.log && rig play w --log w.log <&- && same 'the log without input' "$(cat w.log)" ''
}

# a name of its own for the program that make builds
by_a_link() {
    rm -f linked && ln -s "$programs/rig" linked && wall w && same 'the answer' "$(echo 0501006266 | ./linked play w)" 060100620164
}

test_that "01's bursts, each on a fresh wall" bursts_of_01
test_that 'a session of bursts' one_session
test_that 'show names the settings' show_names_the_settings
test_that 'new writes all fields' new_is_written_whole
test_that 'forms of input' input_forms
test_that 'bursts of any length' any_length
test_that 'a line that is not hex' not_hex
test_that 'bad arguments' bad_arguments
test_that 'unreadable files' unreadable_files
test_that 'refusals by number' refusals_by_number
test_that 'new names the panel that is refused' new_names_the_bad_panel
test_that 'files over 65,536 bytes' files_that_are_too_big
test_that 'an output that is full' output_that_is_full
test_that 'descriptors that are closed' closed_descriptors
test_that 'the program by a link' by_a_link
