# Salvage by example, from 02's A7. Sourced by test.sh.

# salvages IMAGE LINES RECORD...: an image of these bytes gives these lines, with commas between, and these records in form
# 2; it stays as it is
salvages() {
    local from=$1 lines=$2 records
    shift 2
    records=$((0x${from: -4:2}))
    rm -f n && image_of w "$from" && touch -d 2001-01-01 w && rig salvage w n >told || return
    same "the lines of $from" "$(sed '$d' told | cut -c 1-8 | sed 's/ *$//' | paste -sd ,)" "$lines" &&
        same "what is kept of $from" "$(bytes n)" "$(setup_of 2 "$@")" &&
        same 'the last line' "$(tail -n 1 told | tr -d s)" "$# panel of $records record to be kept in n" || return
    same 'the setup' "$(bytes w)" "$from" && same 'its time' "$(stat -c %Y w)" "$(date -d 2001-01-01 +%s)"
}
# in_a_record: lines of a head and fields, a semicolon, the lines told of them, a semicolon, and the fields that are kept;
# each as the second of three form 2 records, between sound ones
in_a_record() {
    local head fields lines values before=070900 after=ff0901
    while IFS=';' read -r head fields lines values; do
        salvages "$(setup_of 2 $before "$head$fields" $after$(field 61:04))" "$lines" \
            "$(kept $before)" "$(kept "$head" $values)" "$(kept $after 61:04)" || return
    done
}

a_sound_setup() {
    salvages "$(setup_of 2 "$(kept 010900 61:04 01:01)" "$(kept 02ff01 18:01)")" '' "$(kept 010900 61:04 01:01)" \
        "$(kept 02ff01 18:01)" && salvages 0002 '' && salvages 0001 '' || return
    # in any order, most left out; form 1
    salvages "$(setup_of 2 "030901$(field dd:01 22:01000202 18:01)")" '' "$(kept 030901 dd:01 22:01000202 18:01)" &&
        salvages "$(setup_of 1 "0109$(field dd:01 61:04)" 0208)" '' "$(kept 010900 dd:01 61:04)" "$(kept 020800)"
}

# 16: each reason, in form 2 and in form 1
records_dropped() {
    local record good
    good=$(field 61:04)
    for record in 01 0109 "000900$good" "010000$good" "010902$good" "0109ff$good"; do
        salvages "$(setup_of 2 "$record" "020900$good")" '1 16' "$(kept 020900 61:04)" &&
            salvages "$(setup_of 2 "020900$good" "$record")" '2 16' "$(kept 020900 61:04)" || return
    done
    for record in 01 "0009$good" "0100$good"; do
        salvages "$(setup_of 1 "$record" "0209$good")" '1 16' "$(kept 020900 61:04)" || return
    done
    salvages "$(setup_of 1 0109 "0209$good")" '' "$(kept 010900)" "$(kept 020900 61:04)" || return
    # nothing more is told of a dropped record; and none is left
    salvages "$(setup_of 2 "010000$(field 61:05 62:01)" "000900$(field 62:01)" 01090261 0109)" \
        '1 16,2 16,3 16,4 16'
}

# an ID counts as seen only from a record that was kept
ids_of_dropped_records() {
    local first
    for first in 05 0509 050000 050902; do
        salvages "$(setup_of 2 $first "050900$(field 61:04)")" '1 16' "$(kept 050900 61:04)" &&
            salvages "$(setup_of 2 $first "050900$(field 61:04)" "050801$(field 61:03)")" '1 16,3 16' "$(kept 050900 61:04)" ||
            return
    done
    salvages "$(setup_of 2 "050900$(field 61:04)" "050801$(field 61:03)" 050700 060900)" '2 16,3 16' "$(kept 050900 61:04)" \
        "$(kept 060900)" || return
    # kept for its ID, also where a field stops it
    salvages "$(setup_of 2 "050900$(field 62:04)" 050900)" '1 17 62,2 16' "$(kept 050900)"
}

# 17: kept up to it; it and all behind it fresh, and nothing more is told
stops_at_17() {
    local behind
    behind=$(field a3:01 dd:04 34:02)
    in_a_record <<END
010900;$(field 18:01 62:04)$behind;2 17 62;18:01
010900;$(field 18:01 00:04)$behind;2 17 00;18:01
010900;$(field 18:01 ff:04)$behind;2 17 FF;18:01
010900;$(field 18:01 0a:04)$behind;2 17 0A;18:01
010900;$(field 18:01 b0:04)$behind;2 17 B0;18:01
010900;$(field 18:01 ce:)$behind;2 17 CE;18:01
010900;$(field 18:01 61:04 18:02)$behind;2 17 18;18:01 61:04
010900;$(field 18:01 61:04 18:01)$behind;2 17 18;18:01 61:04
010900;$(field 18:01 61:04 18:03)$behind;2 17 18;18:01 61:04
010900;$(field 18:01 61:)$behind;2 17 61;18:01
010900;$(field 18:01 61:0404)$behind;2 17 61;18:01
010900;$(field 18:01 61:0505)$behind;2 17 61;18:01
010900;$(field 18:01)420250;2 17 42;18:01
010900;$(field 18:01)61;2 17 61;18:01
010900;$(field 18:01)dd;2 17 DD;18:01
010900;$(field 18:01)ab;2 17 AB;18:01
010900;00;2 17 00;
010900;61;2 17 61;
010900;$(field 63:04)$behind;2 17 63;
END
}

# 18: the fresh value in its place, and all others kept
fresh_in_place_of_18() {
    local code bad all= lines=
    while read -r code bad; do
        in_a_record <<END || return
010900;$(field "$code:$bad");2 18 ${code^^};
010900;$(field 42:0102 "$code:$bad" d0:03);2 18 ${code^^};42:0102 d0:03
END
        all="$all $code:$bad" lines="$lines,2 18 ${code^^}"
    done <<'END'
01 02
18 03
22 00000201
32 32323232650000
34 02
61 05
a3 03
dd 04
END
    in_a_record <<END || return
010900;$(field $all 42:6501 d0:04);${lines#,},2 18 42,2 18 D0;
010900;$(field $all 42:6501 d0:04 18:01);${lines#,},2 18 42,2 18 D0,2 17 18;
010900;$(field 61:05 18:01 dd:ff 62:01 a3:03);2 18 61,2 18 DD,2 17 62;18:01
010900;$(field 61:05 18:01 61:04 a3:01);2 18 61,2 17 61;18:01
010900;$(field 61:05 18:01 61:05 a3:01);2 18 61,2 17 61;18:01
END
}

# each panel's own profile: what is allowed, and what is fresh
by_profile() {
    in_a_record <<END
010901;$(field 32:3232323c003203 61:04);2 18 32;61:04
010901;$(field 32:32323205803203 61:04);2 18 32;61:04
010901;$(field 32:64646405ce6405 61:04);;32:64646405ce6405 61:04
010900;$(field 32:32323205ce3203 61:04);2 18 32;61:04
010900;$(field 32:6464643c006405 61:04);;32:6464643c006405 61:04
010901;$(field 61:04 33:00 32:64646405ce6405);2 17 33;61:04
010900;$(field 61:04 33:00 32:64646405006405);2 17 33;61:04
END
}

# a kind with 18 is 5 by 5, and the tiling behind it judged by that; a kind behind a tiling that was seen is 17
by_kind() {
    in_a_record <<END
010900;$(field 01:01 22:01009696 61:04);;01:01 22:01009696 61:04
010900;$(field 01:02 22:01001919 61:04);2 18 01;22:01001919 61:04
010900;$(field 01:02 22:0100101a 61:04);2 18 01,2 18 22;61:04
010900;$(field 01:ff 22:01000108 01:01 61:04);2 18 01,2 17 01;22:01000108
010900;$(field 01:01 22:01009796 61:04);2 18 22;01:01 61:04
010900;$(field 01:01 22:01000100 61:04);2 18 22;01:01 61:04
010900;$(field 22:01000100 61:04);2 18 22;61:04
010900;$(field 22:0100101a 61:04);2 18 22;61:04
010900;$(field 22:0100101a 01:01 61:04);2 18 22,2 17 01;
010900;$(field 22:0100101a 01:02 61:04);2 18 22,2 17 01;
010900;$(field 22:0100101a 22:01000108 61:04);2 18 22,2 17 22;
010900;$(field 22:01000108 01:01 61:04);2 17 01;22:01000108
010900;$(field 61:04 01:01 23:00 22:01009696);2 17 23;61:04 01:01
END
}

form_1() {
    salvages "$(setup_of 1 "0109$(field 61:04 01:00 18:01)" "0209$(field 61:05 18:01)" "0308$(field 18:01 22:00000101)" 04)" \
        '1 17 01,2 18 61,3 17 22,4 16' "$(kept 010900 61:04)" "$(kept 020900 18:01)" "$(kept 030800 18:01)" || return
    salvages "$(setup_of 1 "0109$(field 32:32323205ce3203)" "0209$(field 18:00 32:64 34:00)")" '1 18 32,2 18 18,2 17 32' \
        "$(kept 010900)" "$(kept 020900)" || return
    # where form 2 has the profile
    salvages "$(setup_of 1 "0109$(field 01:00)" 010902 02ff00)" '1 17 01,2 16,3 17 00' "$(kept 010900)" "$(kept 02ff00)"
}

# in decimal, from 1, by the place in the image and not among those kept
record_numbers() {
    local k records=() panels=() lines=
    for k in $(seq 32); do
        if [ $((k % 3)) -eq 0 ]; then
            records+=("$(printf %02x "$k")0000") lines=$lines,$k' 16'
        else
            records+=("$(printf %02x "$k")0900$(field 61:05 ff:)") lines=$lines,$k' 18 61',$k' 17 FF'
            panels+=("$(kept "$(printf %02x "$k")0900")")
        fi
    done
    salvages "$(setup_of 2 "${records[@]}")" "${lines#,}" "${panels[@]}"
}

# 32 records with eleven lines each
all_lines() {
    local k code fields records=() panels=() lines=
    fields=$(field 01:02 18:03 22:00000000 32:64646464646464 34:02 42:6565 61:05 a3:03 d0:04 dd:04)
    for k in $(seq 32); do
        records+=("$(printf %02x "$k")0901${fields}dd") panels+=("$(kept "$(printf %02x "$k")0901")")
        for code in 01 18 22 32 34 42 61 A3 D0 DD; do lines="$lines,$k 18 $code"; done
        lines="$lines,$k 17 DD"
    done
    salvages "$(setup_of 2 "${records[@]}")" "${lines#,}" "${panels[@]}" || return
    same 'length of the lines' "$(echo "${lines#,}" | tr , '\n' | wc -c)" 3069
}

test_that 'salvage: a sound setup gives no lines' a_sound_setup
test_that 'salvage: records with 16 are dropped' records_dropped
test_that 'salvage: the ID of a dropped record is free' ids_of_dropped_records
test_that 'salvage: a field with 17 and all behind it are fresh' stops_at_17
test_that 'salvage: a field with 18 is fresh, the others kept' fresh_in_place_of_18
test_that 'salvage: each panel by its profile' by_profile
test_that 'salvage: each panel by its kind' by_kind
test_that 'salvage: form 1' form_1
test_that 'salvage: records are numbered from 1' record_numbers
test_that 'salvage: 32 records with eleven lines each' all_lines
