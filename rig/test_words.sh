# The lines of a log by example: bursts and answers in words, with the settings of 01, the damages of 02's A3 and the NAV of
# its A5. Sourced by test.sh.

each_setting_got() {
    logged <<'END'
05 01 00 19 1D; ID 1, group 0, get power: report from panel 1, power on
05 01 00 23 27; ID 1, group 0, get tiling: report from panel 1, tiling off, frame compensation off, position 1, wall 1 wide 1 high (byte 01)
05 01 00 33 37; ID 1, group 0, get video: report from panel 1, video brightness 50, colour 50, contrast 50, sharpness 50, tint 50, black level 50, gamma 3
05 02 00 33 34; ID 2, group 0, get video: report from panel 2, video brightness 50, colour 50, contrast 50, sharpness 5, tint 0, black level 50, gamma 3
05 01 00 35 31; ID 1, group 0, get colour temperature: report from panel 1, colour temperature 1
05 01 00 43 47; ID 1, group 0, get audio: report from panel 1, audio treble 50, bass 50
05 01 00 62 66; ID 1, group 0, get fan: report from panel 1, fan 1
05 01 00 A4 A0; ID 1, group 0, get cold start: report from panel 1, cold start 2
05 01 00 D1 D5; ID 1, group 0, get APM: report from panel 1, APM 0
05 01 00 DE DA; ID 1, group 0, get power saving: report from panel 1, power saving 0
END
}

each_setting_set() {
    logged <<'END'
06 01 00 18 01 1E; ID 1, group 0, set power off: ACK from panel 1
06 01 00 18 02 1D; ID 1, group 0, set power on: ACK from panel 1
09 01 00 22 01 01 02 03 2B; ID 1, group 0, set tiling on, frame compensation on, position 2, wall 3 wide 1 high (byte 03): ACK from panel 1
0C 01 00 32 01 02 03 04 05 06 05 3D; ID 1, group 0, set video brightness 1, colour 2, contrast 3, sharpness 4, tint 5, black level 6, gamma 5: ACK from panel 1
06 01 00 34 0D 3E; ID 1, group 0, set colour temperature 13: ACK from panel 1
07 01 00 42 4D 50 59; ID 1, group 0, set audio treble 77, bass 80: ACK from panel 1
06 01 00 61 04 62; ID 1, group 0, set fan 4: ACK from panel 1
06 01 00 A3 01 A5; ID 1, group 0, set cold start 1: ACK from panel 1
06 01 00 D0 03 D4; ID 1, group 0, set APM 3: ACK from panel 1
06 01 00 DD 02 D8; ID 1, group 0, set power saving 2: ACK from panel 1
END
}

# Only the tint has a sign, and only above 127.
tint_with_its_byte() {
    logged <<'END' || return
0C 02 00 32 32 32 32 0A CE 32 03 FB; ID 2, group 0, set video brightness 50, colour 50, contrast 50, sharpness 10, tint -50 (byte CE), black level 50, gamma 3: ACK from panel 2
0C 01 00 32 32 32 32 0A CE 32 03 F8; ID 1, group 0, set video brightness 50, colour 50, contrast 50, sharpness 10, tint -50 (byte CE), black level 50, gamma 3: NAV from panel 1
0C 02 00 32 32 32 32 0A FF 32 03 CA; ID 2, group 0, set video brightness 50, colour 50, contrast 50, sharpness 10, tint -1 (byte FF), black level 50, gamma 3: ACK from panel 2
0C 02 00 32 32 32 32 0A 80 32 03 B5; ID 2, group 0, set video brightness 50, colour 50, contrast 50, sharpness 10, tint -128 (byte 80), black level 50, gamma 3: NAV from panel 2
0C 02 00 32 32 32 32 0A 7F 32 03 4A; ID 2, group 0, set video brightness 50, colour 50, contrast 50, sharpness 10, tint 127, black level 50, gamma 3: NAV from panel 2
0C 02 00 32 CE 32 32 0A 00 32 03 C9; ID 2, group 0, set video brightness 206, colour 50, contrast 50, sharpness 10, tint 0, black level 50, gamma 3: NAV from panel 2
07 01 00 42 32 CE B8; ID 1, group 0, set audio treble 50, bass 206: NAV from panel 1
END
    printf '0C02003232323205CE3203F4\n0502003334\n' | rig play w --log w.log >answers || return
    same 'the report' "$(tail -n 1 w.log)" '2: 05 02 00 33 34: ID 2, group 0, get video: report from panel 2, video brightness 50, colour 50, contrast 50, sharpness 5, tint -50 (byte CE), black level 50, gamma 3'
}

# Each kind's wall where they differ.
walls_by_kind() {
    logged <<'END'
09 01 00 22 01 00 02 08 21; ID 1, group 0, set tiling on, frame compensation off, position 2, wall 3 wide 2 high on 5x5 or 8 wide 1 high on 15x10 (byte 08): ACK from panel 1
09 00 09 22 01 00 02 12 33; ID 0, group 9, set tiling on, frame compensation off, position 2, wall 3 wide 4 high on 5x5 or 3 wide 2 high on 15x10 (byte 12): silence
09 01 00 22 01 00 01 05 2F; ID 1, group 0, set tiling on, frame compensation off, position 1, wall 5 wide 1 high (byte 05): ACK from panel 1
09 01 00 22 01 00 06 06 2B; ID 1, group 0, set tiling on, frame compensation off, position 6, wall 1 wide 2 high on 5x5 or 6 wide 1 high on 15x10 (byte 06): NAV from panel 1
09 01 00 22 00 00 19 19 2A; ID 1, group 0, set tiling off, frame compensation off, position 25, wall 5 wide 5 high on 5x5 or 10 wide 2 high on 15x10 (byte 19): ACK from panel 1
09 01 00 22 00 00 01 1A 31; ID 1, group 0, set tiling off, frame compensation off, position 1, wall 11 wide 2 high on 15x10 (byte 1A): NAV from panel 1
09 01 00 22 00 00 96 96 2A; ID 1, group 0, set tiling off, frame compensation off, position 150, wall 15 wide 10 high on 15x10 (byte 96): NAV from panel 1
09 01 00 22 00 00 01 97 BC; ID 1, group 0, set tiling off, frame compensation off, position 1, wall of no panel (byte 97): NAV from panel 1
09 01 00 22 02 03 00 FF D4; ID 1, group 0, set tiling 2, frame compensation 3, position 0, wall of no panel (byte FF): NAV from panel 1
09 01 00 22 01 00 01 00 2A; ID 1, group 0, set tiling on, frame compensation off, position 1, wall as it is (byte 00): ACK from panel 1
END
}

no_answer_due() {
    logged <<'END'
06 00 09 61 02 6C; ID 0, group 9, set fan 2: silence
06 00 00 61 02 65; ID 0, group 0, set fan 2: silence
06 01 FF 61 02 9B; ID 1, group 255, set fan 2: silence
06 07 FE 61 02 9C; ID 7, group 254, set fan 2: silence
05 00 00 19 1C; ID 0, group 0, get power: silence
05 03 00 19 1F; ID 3, group 0, get power: silence
05 FF 00 19 E3; ID 255, group 0, get power: silence
04 01 19 1C; ID 1, group 25, no data: silence
END
}

not_available() {
    logged <<'END'
06 01 00 61 05 63; ID 1, group 0, set fan 5: NAV from panel 1
06 01 00 18 00 1F; ID 1, group 0, set power 0: NAV from panel 1
06 01 00 18 03 1C; ID 1, group 0, set power 3: NAV from panel 1
04 01 00 05; ID 1, group 0, no data: NAV from panel 1
05 01 00 00 04; ID 1, group 0, unknown code 00: NAV from panel 1
05 01 00 01 05; ID 1, group 0, unknown code 01: NAV from panel 1
06 01 00 01 01 07; ID 1, group 0, unknown code 01: NAV from panel 1
08 01 00 22 00 00 01 2A; ID 1, group 0, set tiling with 3 values, and it has 4: NAV from panel 1
09 01 00 23 00 00 01 01 2B; ID 1, group 0, get tiling with 4 values, and a get has none: NAV from panel 1
05 02 00 0A 0D; ID 2, group 0, unknown code 0A: NAV from panel 2
08 01 00 5B 01 02 03 52; ID 1, group 0, unknown code 5B: NAV from panel 1
06 01 00 62 01 64; ID 1, group 0, get fan with 1 value, and a get has none: NAV from panel 1
07 01 00 19 01 02 1C; ID 1, group 0, get power with 2 values, and a get has none: NAV from panel 1
05 01 00 61 65; ID 1, group 0, set fan with 0 values, and it has 1: NAV from panel 1
07 01 00 61 01 02 64; ID 1, group 0, set fan with 2 values, and it has 1: NAV from panel 1
06 01 00 32 32 07; ID 1, group 0, set video with 1 value, and it has 7: NAV from panel 1
06 00 00 32 32 06; ID 0, group 0, set video with 1 value, and it has 7: silence
END
}

# A whole log on one wall, with the NAV that power off to a panel that is off gets and those that have other reasons.
off_already() {
    cat >wanted <<'END'
1: 06 01 00 18 01 1E: ID 1, group 0, set power off: ACK from panel 1
2: 06 01 00 18 01 1E: ID 1, group 0, set power off: NAV from panel 1, which is off already
3: 05 01 00 19 1D: ID 1, group 0, get power: report from panel 1, power off
4: 06 00 09 18 01 16: ID 0, group 9, set power off: silence
5: 06 02 00 18 01 1D: ID 2, group 0, set power off: NAV from panel 2, which is off already
6: 06 00 00 18 01 1F: ID 0, group 0, set power off: silence
7: 06 01 00 18 01 1F: checksum wrong, the last byte is 1F and the others give 1E: NACK from panel 1
8: 06 01 00 18 04 1B: ID 1, group 0, set power 4: NAV from panel 1
9: 07 01 00 18 01 01 1E: ID 1, group 0, set power with 2 values, and it has 1: NAV from panel 1
10: 05 01 00 18 1C: ID 1, group 0, set power with 0 values, and it has 1: NAV from panel 1
11: 06 01 00 19 01 1F: ID 1, group 0, get power with 1 value, and a get has none: NAV from panel 1
12: 06 01 00 17 01 11: ID 1, group 0, unknown code 17: NAV from panel 1
13: 04 01 00 05: ID 1, group 0, no data: NAV from panel 1
14: 06 01 00 18 02 1D: ID 1, group 0, set power on: ACK from panel 1
15: 06 01 00 18 02 1D: ID 1, group 0, set power on: ACK from panel 1
16: 06 01 00 18 01 1E: ID 1, group 0, set power off: ACK from panel 1
END
    mixed_wall w && rm -f w.log && cut -d: -f 2 wanted | rig play w --log w.log >answers || return
    cmp w.log wanted || { diff w.log wanted; return 1; }
}

# Each with NACK, and with the silence of another group and of an ID that no panel has.
each_damage() {
    logged <<'END' || return
00; too short, 1 byte and a packet has at least 4: silence
05 01; too short, 2 bytes and a packet has at least 4: silence
03 01 00; too short, 3 bytes and a packet has at least 4: NACK from panel 1
03 01 02; too short, 3 bytes and a packet has at least 4: silence
03 03 00; too short, 3 bytes and a packet has at least 4: silence
05 01 00 62; size differs from the count, the first byte says 5 and 4 bytes came: NACK from panel 1
05 02 00 19 1E 00; size differs from the count, the first byte says 5 and 6 bytes came: NACK from panel 2
FF 01 00 19 1D; size differs from the count, the first byte says 255 and 5 bytes came: NACK from panel 1
05 01 09 19 14 00; size differs from the count, the first byte says 5 and 6 bytes came: silence
06 03 00 19 1F; size differs from the count, the first byte says 6 and 5 bytes came: silence
05 01 00 19 1C; checksum wrong, the last byte is 1C and the others give 1D: NACK from panel 1
04 01 00 00; checksum wrong, the last byte is 00 and the others give 05: NACK from panel 1
05 01 09 19 1D; checksum wrong, the last byte is 1D and the others give 14: silence
05 03 00 19 1D; checksum wrong, the last byte is 1D and the others give 1F: silence
END
    local zeros
    zeros=$(printf ' 00%.0s' $(seq 36))
    logged <<END
29 01 00 19$zeros 31; too long, 41 bytes and a packet has at most 40: NACK from panel 1
29 01 09 19$zeros 38; too long, 41 bytes and a packet has at most 40: silence
29 03 00 19$zeros 33; too long, 41 bytes and a packet has at most 40: silence
28 01 00 19${zeros%00}30; ID 1, group 0, get power with 35 values, and a get has none: NAV from panel 1
28 01 00 19${zeros%00}31; checksum wrong, the last byte is 31 and the others give 30: NACK from panel 1
END
}

# Every code, with 0 to 8 bytes behind it, each packet also without its last byte; then no bytes, and 100,000.
every_code() {
    local code packet behind='01 02 03 04 05 06 07 08'
    for code in $(seq 0 255); do
        packet=$(packet 01 00 "$(printf %02X "$code")" ${behind:0:3 * (code % 9)})
        printf '%s\n%s\n' "$packet" "${packet%??}"
    done
    echo
    printf '050100%0199994d\n' 0
}
# What the log has to have in its first two parts and its last one, from the bursts and the answers.
outer_parts() {
    paste -d' ' bursts answers | awk -F'[ ]' '{
        hex = $1; answer = $2
        gsub(/../, "& ", hex); sub(/ $/, "", hex)
        panel = " from panel " (substr(answer, 3, 2) + 0)
        if (answer == "-") words = "silence"
        else if (substr(answer, 7, 2) != "00") words = "report" panel
        else words = (substr(answer, 9, 2) == "06" ? "ACK" : substr(answer, 9, 2) == "15" ? "NACK" : "NAV") panel
        print NR ": " (hex == "" ? "-" : hex) ": " words
    }'
}
parts_stay_apart() {
    wall w && rm -f w.log && every_code >bursts && rig play w --log w.log <bursts >answers || return
    same 'lines' "$(wc -l <w.log)" 514 || return
    same 'lines of four parts' "$(awk -F': ' 'NF == 4 && $3 != ""' w.log | wc -l)" 514 || return
    sed -E 's/^([0-9]+: [^:]+: )[^:]*: ([^,]*).*/\1\2/' w.log >got
    outer_parts >wanted
    cmp got wanted || { diff got wanted | head -c 2000; return 1; }
    same 'the longest' "$(tail -n 1 w.log | cut -d: -f 3)" ' too long, 100000 bytes and a packet has at most 40'
}

test_that 'the log of each setting got' each_setting_got
test_that 'the log of each setting set' each_setting_set
test_that 'the log of a tint below 0' tint_with_its_byte
test_that 'the log of walls, by kind' walls_by_kind
test_that 'the log of bursts that get no answer' no_answer_due
test_that 'the log of bursts that get NAV' not_available
test_that 'the log of power off to a panel that is off' off_already
test_that 'the log of each damage' each_damage
test_that 'the parts of a log line, for every code and for 100,000 bytes' parts_stay_apart
