# Setup forms and profiles by example, from 02's A1 and A2, and what its A6 adds to the way back. Sourced by test.sh.

# The fields of a fresh general panel as they are written, with this digit for the fan: in form 1, and in form 2, which has
# the kind and the tiling too.
behind_tiling() { echo "32073232323232320334010142023232""61010$1""a30102d00100dd0100"; }
fields_1() { echo "180102$(behind_tiling "$1")"; }
fields_2() { echo "010100""180102""220400000101$(behind_tiling "$1")"; }
# Panels 1 and 2 in group 9, with panel 1's fan: as form 1's writer has them, and as form 2's.
pair_in_form_1() { echo "0109$(fields_1 "$1")0209$(fields_1 1)""00000021""0201"; }
pair_in_form_2() { echo "010900$(fields_2 "$1")020900$(fields_2 1)""0000002b""0202"; }

# video FILE ID: the panel's video values, from its report
video() { packet "$2" 00 33 | rig play "$1" | cut -c 9-22; }

new_with_profiles() {
    new_wall w 7:255:phoenix 3:9 || return
    same bytes "$(bytes w)" "07ff01$(fields_2 1 | sed 's/3207323232323232/3207323232050032/')030900$(fields_2 1)0000002b0202" &&
        same 'fresh Phoenix video' "$(video w 07)" 32323205003203 && same 'fresh general video' "$(video w 03)" 32323232323203
}

fields_left_out_are_fresh_by_profile() {
    image_of w 010900020901610104000000030202
    same 'general' "$(video w 01)" 32323232323203 && same 'Phoenix' "$(video w 02)" 32323205003203 || return
    same 'the fan' "$(packet 02 00 62 | rig play w)" "$(packet 02 00 62 04)"
}

show_has_profiles_signs_and_the_form() {
    new_wall w 1:9 2:9:phoenix 3:9:phoenix 4:255:phoenix || return
    { packet 01 00 32 32 32 32 3C 07 32 03; packet 02 00 32 64 64 64 0A CE 64 05; packet 03 00 32 00 01 02 03 07 04 03; } |
        rig play w >answers || return
    rig show w >shown || return
    same show "$(head -n 5 shown)" "\
 ID  group  profile   kind  power                    video  gamma  colour temperature  treble  bass  fan  cold start  APM  power saving
  1      9  general    5x5     on         50 50 50 60 7 50      3                   1      50    50    1           2    0             0
  2      9  Phoenix    5x5     on   100 100 100 10 -50 100      5                   1      50    50    1           2    0             0
  3      9  Phoenix    5x5     on             0 1 2 3 +7 4      3                   1      50    50    1           2    0             0
  4    off  Phoenix    5x5     on          50 50 50 5 0 50      3                   1      50    50    1           2    0             0" &&
        same 'the last line' "$(tail -n 1 shown)" '4 panels, form 2' || return
    image_of w "$(pair_in_form_1 1)" && same 'the last line' "$(rig show w | tail -n 1)" '2 panels, form 1' || return
    image_of w 0001 && same 'the last line' "$(rig show w | tail -n 1)" '0 panels, form 1'
}

# sharpness, tint, then what the general panel and the Phoenix panel say
judged_by_profile() {
    local sharpness tint general phoenix
    mixed_wall w
    while read -r sharpness tint general phoenix; do
        same "sharpness $sharpness, tint $tint, general" \
            "$(packet 01 00 32 32 32 32 "$sharpness" "$tint" 32 03 | rig play w)" "$(packet 01 00 00 "$general")" || return
        same "sharpness $sharpness, tint $tint, Phoenix" \
            "$(packet 02 00 32 32 32 32 "$sharpness" "$tint" 32 03 | rig play w)" "$(packet 02 00 00 "$phoenix")" || return
    done <<'END'
00 00 06 06
0A 32 06 06
0B 00 06 18
3C 00 06 18
64 00 06 18
65 00 18 18
FF 00 18 18
05 33 06 18
05 64 06 18
05 65 18 18
05 7F 18 18
05 80 18 18
05 CD 18 18
05 CE 18 06
05 FF 18 06
0B CE 18 18
END
    packet 02 00 32 32 32 32 05 00 CE 03 | rig play w >answers
    same 'black level CE, Phoenix' "$(cat answers)" "$(packet 02 00 00 18)"
}

# to a group and to all: values, then what panels 1 and 2 have afterwards; both had other values before
one_takes_it() {
    local to values general phoenix
    while read -r values general phoenix; do
        for to in 09 00; do
            mixed_wall w
            same 'answer' "$(packet 00 $to 32 $(echo "$values" | sed 's/../& /g') | rig play w)" - || return
            same "general after $values to 00 $to" "$(video w 01)" "$general" &&
                same "Phoenix after $values to 00 $to" "$(video w 02)" "$phoenix" || return
        done
    done <<'END'
0A141E3C004602 0A141E3C004602 32323205003203
0A141E05CE4602 32323232323203 0A141E05CE4602
0A141E0A324602 0A141E0A324602 0A141E0A324602
0A141E3CCE4602 32323232323203 32323205003203
END
}

# form_2_from HEX: with the first change of a setup that has these bytes
form_2_from() {
    image_of w "$1"
    touch -d 2001-01-01 w
    { packet 01 00 62; echo; packet 01 00 61 01; packet 01 00 61 05; packet 01 00 32 32 32 32 05 CE 32 03; } |
        rig play w >answers || return
    same answers "$(cat answers)" "$(packet 01 00 62 01; echo -; packet 01 00 00 06; packet 01 00 00 18; packet 01 00 00 18)" ||
        return
    same 'bytes before a change' "$(bytes w)" "$1" || return
    same 'time of the file' "$(stat -c %Y w)" "$(date -d 2001-01-01 +%s)" || return
    same 'a change' "$(packet 01 00 61 04 | rig play w)" "$(packet 01 00 00 06)" &&
        same 'bytes after it' "$(bytes w)" "$(pair_in_form_2 4)"
}
form_1_becomes_form_2() { form_2_from "$(pair_in_form_1 1)"; }
# as boxes without kinds and tiling write it
older_form_2_grows() { form_2_from "010900$(fields_1 1)020900$(fields_1 1)""00000022""0202"; }

# goes_back HEX FORM_1: a setup of these bytes gives this new file, and stays
goes_back() {
    rm -f n && image_of w "$1" && rig back w n || return
    same "$1 in form 1" "$(bytes n)" "$2" && same 'the setup' "$(bytes w)" "$1"
}
back_to_form_1() {
    goes_back "$(pair_in_form_2 4)" "$(pair_in_form_1 4)" && goes_back "$(pair_in_form_1 3)" "$(pair_in_form_1 3)" &&
        goes_back 0002 0001 && goes_back 0001 0001 || return
    # fields in any order, most left out
    goes_back 0109dd010061010400000101 "0109$(fields_1 4)00000101"
}

# cannot_hold WORDS: w is refused with 31 for these panels, and with this advice
cannot_hold() {
    rm -f n && bytes w >before || return
    ends 1 "rig: w: refusal 31: form 1 cannot hold $1; keep this setup for boxes that know tiling" rig back w n &&
        same "lines about $1" "$(wc -l <message)" 1 && same 'the setup' "$(bytes w)" "$(cat before)" || return
    [ ! -e n ] || { echo "$1 made a file"; return 1; }
}
without='; give an older box a setup without Phoenix and 15x10 panels, made with rig new'
back_would_lose_a_profile() {
    new_wall w 1:9 2:9:phoenix 3:9 && cannot_hold "panel 2 (Phoenix)$without" || return
    new_wall w 1:9:phoenix 2:9 && cannot_hold "panel 1 (Phoenix)$without" || return
    new_wall w 1:9 2:9:phoenix 3:9 200:255:phoenix && cannot_hold "panel 2 (Phoenix), panel 200 (Phoenix)$without"
}

again='; a tiling is fresh again after the set 22 00 00 01 01'
back_would_lose_a_kind_or_tiling() {
    new_wall w 1:9 2:9:15x10 && cannot_hold "panel 2 (15x10)$without" || return
    local values
    for values in '01 00 01 01' '00 01 01 01' '00 00 01 02' '00 00 19 19'; do
        new_wall w 1:9 2:8 && packet 00 09 22 $values | rig play w >answers && cannot_hold "panel 1 (tiling not fresh)$again" ||
            return
    done
    new_wall w 1:9:phoenix 2:8:15x10 3:9 4:8 5:9:phoenix:15x10 && packet 00 09 22 00 00 02 02 | rig play w >answers &&
        cannot_hold "panel 1 (Phoenix, tiling not fresh), panel 2 (15x10), panel 3 (tiling not fresh), \
panel 5 (Phoenix, 15x10, tiling not fresh)$without$again"
}

# kind 5x5 said, and the tiling made fresh again by the set that the message names
back_when_all_is_fresh() {
    goes_back 010900010100220400000101000001""02 "0109$(fields_1 1)00000101" || return
    rm -f n && image_of w "$(pair_in_form_2 4)" || return
    { packet 00 00 22 01 01 06 08; packet 00 00 22 00 00 01 00; } | rig play w >answers && ends 1 'refusal 31' rig back w n &&
        packet 00 00 22 00 00 01 01 | rig play w >answers && rig back w n || return
    same 'form 1' "$(bytes n)" "$(pair_in_form_1 4)" && same 'form 2' "$(bytes w)" "$(pair_in_form_2 4)"
}

back_leaves_files_alone() { image_of w "$(pair_in_form_2 4)" && leaves_files_alone back; }

test_that 'new with profiles' new_with_profiles
test_that 'fields left out are fresh by profile' fields_left_out_are_fresh_by_profile
test_that 'show has profiles, signs and the form' show_has_profiles_signs_and_the_form
test_that 'each panel judges by its profile' judged_by_profile
test_that 'a set to both profiles that one takes' one_takes_it
test_that 'a form 1 file becomes form 2 with its first change' form_1_becomes_form_2
test_that 'a form 2 file without kinds and tiling gets them with its first change' older_form_2_grows
test_that 'back writes form 1 into a new file' back_to_form_1
test_that 'back would lose a profile: 31' back_would_lose_a_profile
test_that 'back would lose a kind or a tiling: 31' back_would_lose_a_kind_or_tiling
test_that 'back when kinds and tilings are fresh' back_when_all_is_fresh
test_that 'back leaves files that are there alone' back_leaves_files_alone
