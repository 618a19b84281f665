# Tiling and the kinds by example: 002's section 8.6 in packets with a group byte, and 02's A6. Sourced by test.sh.

# Panel 1 is 5 by 5 and panel 2 15 by 10, both in group 9.
tiled_wall() { new_wall w 1:9 2:9:15x10; }
# tiling ID: the panel's four values, from its report
tiling() { packet "$1" 00 23 | rig play w | sed -nE 's/^09..0023(.{8})..$/\1/p'; }
# both_say CONTROL DATA...: panels 1 and 2, each asked by its ID
both_say() {
    local control=$1
    shift
    same "$*" "$({ packet 01 00 "$@"; packet 02 00 "$@"; } | rig play w)" \
        "$(packet 01 00 00 "$control"; packet 02 00 00 "$control")"
}

new_with_kinds() {
    new_wall w 1:9 2:9:15x10 3:255:phoenix:15x10 4:8:phoenix || return
    same heads "$(rig show w | sed -n 2,5p | cut -c 1-26)" "\
  1      9  general    5x5
  2      9  general  15x10
  3    off  Phoenix  15x10
  4      8  Phoenix    5x5" || return
    same 'the start of a 15x10 record' "$(bytes w | cut -c 87-116)" 020900010101180102220400000101 || return
    tiled_wall && same 'fresh, 5 by 5' "$(tiling 01)" 00000101 && same 'fresh, 15 by 10' "$(tiling 02)" 00000101
}

# 8.6.1 to 8.6.3: a get, and both sets of position 2 in a wall 3 wide and 2 high, as the report has them
examples_of_002() {
    tiled_wall && in_one_run <<'END'
0501002327 09010023000001012B
090100220100020821 060100000601
0501002327 090100230100020820
090200220100021238 060200000602
0502002324 090200230100021239
END
}

# every_wall_of ID WIDTH HEIGHT: each of a kind by 002's formula, byte (V - 1) * W + H, set with position H * V, which is in
# it, and with the next, which is not
every_wall_of() {
    local id=$1 width=$2 height=$3 v h byte
    for ((v = 1; v <= height; v++)); do
        for ((h = 1; h <= width; h++)); do
            printf -v byte %02X $(((v - 1) * width + h))
            packet "$id" 00 22 01 00 "$(printf %02X $((h * v)))" "$byte"
            packet "$id" 00 22 01 00 "$(printf %02X $((h * v + 1)))" "$byte"
        done
    done
}
every_wall() {
    tiled_wall || return
    local id width height number
    while read -r id width height; do
        number=$((width * height))
        every_wall_of "$id" "$width" "$height" | rig play w >answers || return
        same "sets of panel $id" "$(wc -l <answers)" $((2 * number)) || return
        same "sets of H * V, panel $id" "$(sed -n '1~2p' answers | sort -u)" "$(packet "$id" 00 00 06)" &&
            same "sets of H * V + 1, panel $id" "$(sed -n '2~2p' answers | sort -u)" "$(packet "$id" 00 00 18)" || return
        same "the last wall of panel $id" "$(tiling "$id")" "0100$(printf '%02X%02X' "$number" "$number")" || return
        # bytes past the last wall
        for number in $(seq $((number + 1)) 255); do
            packet "$id" 00 22 01 00 01 "$(printf %02X "$number")"
        done | rig play w | sort -u >answers
        same "bytes past the last of panel $id" "$(cat answers)" "$(packet "$id" 00 00 18)" || return
    done <<'END'
01 5 5
02 15 10
END
}

# Byte 0 leaves the wall, and the position is judged by it: here 3 wide and 2 high on both.
wall_as_it_is() {
    tiled_wall && in_one_run <<END || return
$(packet 01 00 22 01 00 02 08) $(packet 01 00 00 06)
$(packet 02 00 22 01 00 02 12) $(packet 02 00 00 06)
END
    both_say 06 22 00 01 06 00 && same 'panel 1' "$(tiling 01)" 00010608 && same 'panel 2' "$(tiling 02)" 00010612 || return
    both_say 18 22 01 00 07 00 && both_say 18 22 01 00 19 00 && both_say 18 22 01 00 00 00 && both_say 18 22 02 00 01 00 &&
        both_say 18 22 00 02 01 00 || return
    same 'panel 1, still' "$(tiling 01)" 00010608 && same 'panel 2, still' "$(tiling 02)" 00010612 || return
    stays "$(packet 01 00 22 00 01 06 00)" "$(packet 01 00 00 06)" && stays "$(packet 01 00 22 00 01 06 08)" "$(packet 01 00 00 06)"
}
byte_0_on_a_fresh_wall() {
    tiled_wall && both_say 06 22 01 01 01 00 && both_say 18 22 01 01 02 00 && same 'panel 1' "$(tiling 01)" 01010101
}

# 002's "don't overwrite" is not taken over, and no value runs past its range.
not_allowed() {
    tiled_wall || return
    local values
    while read -r values; do both_say 18 22 $values || return; done <<'END'
02 00 01 01
FF 00 01 01
00 02 01 01
00 FF 01 01
00 00 00 01
00 00 00 00
00 00 02 01
00 00 FF 01
00 00 01 97
00 00 01 FF
01 01 01
01 01 01 01 01
END
    both_say 18 22 && both_say 18 23 00 00 01 01 && same 'panel 1' "$(tiling 01)" 00000101
}

# The kind stands in images only: its code, and 0 beside it, are unknown.
code_of_the_kind() {
    tiled_wall && bytes w >before || return
    both_say 18 01 && both_say 18 01 00 && both_say 18 01 01 && both_say 18 01 02 && both_say 18 00 || return
    { packet 00 00 01 01; packet 00 09 01 00; } | rig play w >answers
    same 'to all, and to a group' "$(cat answers)" "$(printf -- '-\n-')" && same 'the setup' "$(bytes w)" "$(cat before)"
}

# to a group and to all: values, then what panels 1 and 2 have afterwards
each_by_its_kind() {
    local to values small large
    while read -r values small large; do
        for to in 09 00; do
            tiled_wall && { packet 01 00 22 00 00 01 03; packet 02 00 22 00 00 01 3D; } | rig play w >answers || return
            same 'answer' "$(packet 00 $to 22 $(echo "$values" | sed 's/../& /g') | rig play w)" - || return
            same "5x5 after $values to 00 $to" "$(tiling 01)" "$small" &&
                same "15x10 after $values to 00 $to" "$(tiling 02)" "$large" || return
        done
    done <<'END'
01000112 01000112 01000112
01000712 01000712 0000013D
01000C12 01000C12 0000013D
01000D12 00000103 0000013D
0100011A 00000103 0100011A
01001E1E 00000103 01001E1E
01000100 01000103 0100013D
01000300 01000303 0100033D
01000400 00000103 0100043D
01000500 00000103 0100053D
01000600 00000103 0000013D
END
}

# A tiling may come before a change or after it; the file is in form 2 from the first one on.
form_1_gets_a_tiling() {
    image w 01 09 61 01 04 00 00 01 01 && stays "$(packet 01 00 22 00 00 01 00)" "$(packet 01 00 00 06)" || return
    same 'a set' "$(packet 01 00 22 01 00 02 08 | rig play w)" "$(packet 01 00 00 06)" || return
    same 'the setup' "$(bytes w)" 01090001010018010222040100020832073232323232320334010142023232610104a30102d00100dd010000000102
}

# kinds: of all panels of w
kinds() { echo $(rig show w | sed '1d; /^$/,$d' | cut -c 22-26); }
# read_as FIELDS TILING KIND: the one panel of an image in form 2
read_as() {
    image_of w "010900$1""00000102" && same "the tiling of $1" "$(tiling 01)" "$2" && same "the kind of $1" "$(kinds)" "$3"
}
fields_in_any_order() {
    read_as '' 00000101 5x5 && read_as 010100 00000101 5x5 && read_as 010101 00000101 15x10 &&
        read_as 220401010608 01010608 5x5 && read_as 010100220401010608 01010608 5x5 &&
        read_as 010101220401009696 01009696 15x10 && read_as 610104010101180101220401009696dd0100 01009696 15x10 &&
        read_as 220400001919610104 00001919 5x5 && read_as 610104010101 00000101 15x10 || return
    # a kind is said of its own record alone, and a Phoenix panel without one is 5 by 5 too
    image_of w 010900010101020901030901220400001919000000060009""0302 && same kinds "$(kinds)" '15x10 5x5 5x5' &&
        same 'the tiling behind' "$(tiling 03)" 00001919
}

images_that_are_refused() {
    refused_images <<'END'
17 01 09 00 22 04 00 00 01 01 01 01 00 00 00 01 02
17 01 09 00 22 04 00 00 01 01 01 01 01 00 00 01 02
17 01 09 00 22 04 00 00 01 01 01 01 02 00 00 01 02
17 01 09 00 22 04 00 00 01 01 61 01 04 01 01 ff 00 00 01 02
17 01 09 00 01 01 00 01 01 00 00 00 01 02
17 01 09 00 01 01 00 01 01 01 22 04 00 00 01 01 00 00 01 02
17 01 09 00 22 04 00 00 01 01 22 04 00 00 01 01 00 00 01 02
17 01 09 00 01 00 00 00 01 02
17 01 09 00 01 02 00 00 00 00 01 02
17 01 09 00 01 01 00 00 01 02
17 01 09 00 01 00 00 01 02
17 01 09 00 22 03 00 00 01 00 00 01 02
17 01 09 00 22 05 00 00 01 01 00 00 00 01 02
17 01 09 00 22 04 00 00 01 00 00 01 02
17 01 09 00 23 04 00 00 01 01 00 00 01 02
17 01 09 00 02 01 00 00 00 01 02
17 01 09 00 00 01 00 00 00 01 02
17 01 09 01 01 00 00 00 01 01
17 01 09 01 01 01 00 00 01 01
17 01 09 22 04 00 00 01 01 00 00 01 01
18 01 09 00 01 01 02 00 00 01 02
18 01 09 00 01 01 ff 22 04 00 00 01 01 00 00 01 02
18 01 09 00 22 04 00 00 01 00 00 00 01 02
18 01 09 00 01 01 01 22 04 00 00 01 00 00 00 01 02
18 01 09 00 22 04 02 00 01 01 00 00 01 02
18 01 09 00 22 04 00 02 01 01 00 00 01 02
18 01 09 00 22 04 00 00 00 01 00 00 01 02
18 01 09 00 22 04 00 00 02 01 00 00 01 02
18 01 09 00 22 04 00 00 07 08 00 00 01 02
18 01 09 00 22 04 00 00 01 1a 00 00 01 02
18 01 09 00 01 01 00 22 04 00 00 01 1a 00 00 01 02
18 01 09 00 01 01 01 22 04 00 00 01 97 00 00 01 02
18 01 09 00 01 01 01 22 04 00 00 07 12 00 00 01 02
18 01 09 01 22 04 00 00 1a 19 00 00 01 02
END
}

# 002's figures 3 to 5: positions in walls 4 by 3, 5 by 5 and 15 by 10
show_has_columns_and_rows() {
    new_wall w 1:9 2:9 3:9 4:9:15x10 5:9:15x10 6:9 && {
        packet 01 00 22 01 00 04 0E
        packet 02 00 22 01 01 05 0E
        packet 03 00 22 00 01 19 19
        packet 04 00 22 01 00 10 96
        packet 05 00 22 01 00 96 96
        packet 06 00 22 00 00 02 06
    } | rig play w >answers || return
    same 'the tilings' "$(rig show w | sed -n '9,$p')" "\
 ID  tiling  frame compensation              wall                 position
  1      on                 off    4 wide, 3 high      4 (column 4, row 1)
  2      on                  on    4 wide, 3 high      5 (column 1, row 2)
  3     off                  on    5 wide, 5 high     25 (column 5, row 5)
  4      on                 off  15 wide, 10 high     16 (column 1, row 2)
  5      on                 off  15 wide, 10 high  150 (column 15, row 10)
  6     off                 off    1 wide, 2 high      2 (column 1, row 2)
6 panels, form 2"
}

test_that 'new with kinds' new_with_kinds
test_that "002's gets and sets of tiling" examples_of_002
test_that 'every wall of both kinds, with its last position and the next' every_wall
test_that 'byte 0 keeps the wall' wall_as_it_is
test_that 'byte 0 on a fresh panel' byte_0_on_a_fresh_wall
test_that 'tilings that are not allowed' not_allowed
test_that 'the code of the kind is unknown on the line' code_of_the_kind
test_that 'each panel judges by its kind and by the wall that it has' each_by_its_kind
test_that 'a form 1 file gets a tiling' form_1_gets_a_tiling
test_that 'kind and tiling in any order, or left out' fields_in_any_order
test_that 'images with a kind or a tiling that is refused' images_that_are_refused
test_that 'show has columns and rows' show_has_columns_and_rows
