# Lines of both editions by example: 02's A11, and 001's section 2.3. Sourced by test.sh.

on_1_85='--sicp 1.85'

bursts_on_1_85() {
    on_fresh_walls $on_1_85 <<'END'
0401191C 050119021F
0501610461 0501000602
0501610560 050100181C
030102 050100181C
04010005 050100181C
0500610266 -
0400191D -
030003 -
030300 -
0403191E -
0401191D 0501001511
04011900 0501001511
0601191C 0501001511
040119 0501001511
030103 0501001511
0501 0501001511
0502 0502001512
0503 -
0500 -
05 -
050100191D 050100181C
060100610462 050100181C
06020961026E 050200181F
END
}

# What a 2.01 line makes of them, set so or by itself; it does not try the other edition.
bursts_on_2_01() {
    local bursts='050100191D 06010019021C
0401191C -
0501610461 -
030102 -
030100 060100001512
04010005 06010000181F
0501 -
05 -
050100191C 060100001512
050109191D -
06000961026C -'
    on_fresh_walls --sicp 2.01 <<<"$bursts" && on_fresh_walls <<<"$bursts"
}

# a panel by its ID, then all by ID 0, the one whose group is off too
sets_on_1_85() {
    new_wall w 1:9 2:255 3:97 && in_one_run $on_1_85 <<'END'
0501610461 0501000602
04016267 0501620462
04026264 0502620164
04036265 0503620165
0500610266 -
04016267 0501620264
04026264 0502620267
04036265 0503620266
0500610561 -
04036265 0503620266
050118011D 0501000602
050118011D 050100181C
0401191C 050119011C
050118021E 0501000602
050118021E 0501000602
END
}

# each setting of 01 and 02, its report fresh and after a set, in packets without a group byte
settings_on_1_85() {
    local set get fresh values
    while IFS=: read -r set get fresh values; do
        wall w && { packet 01 $get; packet 01 $set $values; packet 01 $get; packet 01 $set ${values//[0-9A-F]/F}; } |
            rig play w $on_1_85 >answers || return
        same "the answers to $set" "$(cat answers)" \
            "$(packet 01 $get $fresh; packet 01 00 06; packet 01 $get $values; packet 01 00 18)" || return
    done <<'END'
18:19:02:01
22:23:00 00 01 01:01 00 02 03
32:33:32 32 32 32 32 32 03:01 02 03 04 05 06 02
34:35:01:0D
42:43:32 32:4D 50
61:62:01:04
A3:A4:02:00
D0:D1:00:03
DD:DE:00:02
END
}

# 37 bytes of data fill a packet.
lengths_on_1_85() {
    local zeros
    zeros=$(printf '%072d' 0)
    on_fresh_walls $on_1_85 <<END
280119${zeros}30 050100181C
280119${zeros}31 0501001511
290119${zeros}0031 0501001511
290319${zeros}0033 -
END
}

# spoiled: all that one byte changed, lost or added makes of the packet of these bytes
spoiled() {
    awk -v packet="$*" 'BEGIN {
        n = split(packet, was, " ")
        for (at = 1; at <= n + 1; at++) {
            for (value = 0; value < 256; value++) {
                hex = sprintf("%02X", value)
                front = tail = ""
                for (i = 1; i < at; i++) front = front was[i]
                for (i = at + 1; i <= n; i++) tail = tail was[i]
                print front hex (at <= n ? was[at] : "") tail
                if (at <= n && hex != was[at]) print front hex tail
            }
            if (at <= n) print front tail
        }
    }'
}
# spoiled_on EDITION NACKS PACKET...: each packet for panel 1 spoiled in every way gets one of these NACKs or silence, and the
# setup stays
spoiled_on() {
    local edition=$1 nacks=$2 packet
    shift 2
    wall w && bytes w >before || return
    for packet; do
        spoiled $packet >bursts && rig play w --sicp "$edition" <bursts >answers || return
        same "other answers to what $packet became" "$(grep -vxE -- "-|$nacks" answers)" '' || return
        grep -q "${nacks%%|*}" answers || { echo "no NACK to what $packet became"; return 1; }
        same "the setup after $packet" "$(bytes w)" "$(cat before)" || return
    done
}
packets_spoiled() {
    spoiled_on 1.85 '0501001511|0502001512' '04 01 19 1C' '05 01 61 04 61' '03 01 02' '05 01 18 01 1D' '05 01 00 19 1D' &&
        spoiled_on 2.01 '060100001512|060200001511' '05 01 00 19 1D' '06 01 00 61 04 62' '04 01 00 05' '04 01 19 1C'
}

log_on_1_85() {
    logged $on_1_85 <<'END' || return
04 01 19 1C; SICP 1.85, ID 1, get power: report from panel 1, power on
05 01 61 04 61; SICP 1.85, ID 1, set fan 4: ACK from panel 1
0B 02 32 32 32 32 0A CE 32 03 FC; SICP 1.85, ID 2, set video brightness 50, colour 50, contrast 50, sharpness 10, tint -50 (byte CE), black level 50, gamma 3: ACK from panel 2
08 01 22 01 00 02 08 20; SICP 1.85, ID 1, set tiling on, frame compensation off, position 2, wall 3 wide 2 high on 5x5 or 8 wide 1 high on 15x10 (byte 08): ACK from panel 1
05 00 61 02 66; SICP 1.85, ID 0, set fan 2: silence
04 03 19 1E; SICP 1.85, ID 3, get power: silence
03 01 02; SICP 1.85, ID 1, no data: NAV from panel 1
05 01 61 05 60; SICP 1.85, ID 1, set fan 5: NAV from panel 1
06 01 61 01 02 65; SICP 1.85, ID 1, set fan with 2 values, and it has 1: NAV from panel 1
05 01 00 19 1D; SICP 1.85, ID 1, unknown code 00: NAV from panel 1
05; SICP 1.85, too short, 1 byte and a packet has at least 3: silence
05 01; SICP 1.85, too short, 2 bytes and a packet has at least 3: NACK from panel 1
05 03; SICP 1.85, too short, 2 bytes and a packet has at least 3: silence
04 01 19; SICP 1.85, size differs from the count, the first byte says 4 and 3 bytes came: NACK from panel 1
04 02 19 1C; SICP 1.85, checksum wrong, the last byte is 1C and the others give 1F: NACK from panel 2
END
    printf '\n050118011D\n050118011D\n%s\n' "29$(printf '%080d' 0)" >bursts
    wall w && rm -f w.log && rig play w --log w.log $on_1_85 <bursts >answers || return
    same 'the log of a wall that is off' "$(cut -d: -f 1,3- w.log)" "1: SICP 1.85, no bytes: silence
2: SICP 1.85, ID 1, set power off: ACK from panel 1
3: SICP 1.85, ID 1, set power off: NAV from panel 1, which is off already
4: SICP 1.85, too long, 41 bytes and a packet has at most 40: silence"
}

# docs/RIG.md, of a host and a box that speak different editions: nothing of it is damage
log_of_another_edition() {
    logged <<'END' && logged $on_1_85 <<'END2'
04 01 19 1C; ID 1, group 25, no data: silence
05 01 61 04 61; ID 1, group 97, unknown code 04: silence
END
05 01 00 19 1D; SICP 1.85, ID 1, unknown code 00: NAV from panel 1
06 00 09 61 02 6C; SICP 1.85, ID 0, unknown code 09: silence
END2
}

# docs/RIG.md, of packets that both editions take, each for something else
one_packet_and_two_editions() {
    new_wall w 1:9 2:66 && in_one_run $on_1_85 <<'END' || return
06014218015C 0501000602
04014346 06014318015D
0402191F 050219021C
060142610420 0501000602
04014346 060143610421
END
    new_wall w 1:9 2:66 && in_one_run <<'END'
06014218015C -
050200191E 06020019011C
060142610420 -
0502006265 060200620462
0501004347 07010043323245
END
}

# In any order; a text that is no edition is told before a file is touched.
edition_arguments() {
    local edition words='is no edition of SICP that the box speaks; give 1.85 or 2.01' arguments
    wall w && rm -f w.log || return
    for edition in 1.86 1.84 2.00 2.02 185 201 1.850 1.8 2 1.6 '' ' 1.85' 1.85x v1.85 1,85; do
        ends 2 "rig: $edition $words" rig play w --sicp "$edition" --log w.log && ends 2 "rig: $edition $words" rig serve none none \
            --sicp "$edition" && [ ! -e w.log ] || return
    done
    for arguments in 'w --sicp' '--sicp 1.85 w' 'w 1.85' 'w --sicp 1.85 --sicp 1.85' 'w --sicp 2.01 --sicp 1.85' '--sicp 1.85'; do
        ends 2 'rig: play takes one IMAGE, and then --sicp EDITION' rig play $arguments || return
    done
    ends 2 'rig: show takes one IMAGE' rig show w --sicp 1.85 && ends 2 'rig: --sicp is not ID:GROUP' rig new n --sicp 1.85 || return
    same 'in front of the log' "$(echo 0401191C | rig play w --sicp 1.85 --log w.log)" 050119021F &&
        same 'behind the log' "$(echo 0401191C | rig play w --log w.log --sicp 1.85)" 050119021F && same 'lines' "$(wc -l <w.log)" 2
}

test_that 'bursts on a 1.85 line, each on a fresh wall' bursts_on_1_85
test_that 'bursts on a 2.01 line, each on a fresh wall' bursts_on_2_01
test_that 'sets to a panel and to all on a 1.85 line' sets_on_1_85
test_that 'every setting set and got on a 1.85 line' settings_on_1_85
test_that 'bursts of 40 and 41 bytes on a 1.85 line' lengths_on_1_85
test_that 'packets spoiled by every byte changed, lost or added, on both editions' packets_spoiled
test_that 'the log of a 1.85 line' log_on_1_85
test_that 'the log of a host that speaks the other edition' log_of_another_edition
test_that 'packets that mean something else to each edition' one_packet_and_two_editions
test_that 'arguments of the edition' edition_arguments
