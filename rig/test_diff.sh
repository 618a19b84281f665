# rig diff by example. Sourced by test.sh.

# differ A B: its lines, or nothing and status 0, are on standard input
differ() {
    local wanted status
    wanted=$(cat)
    same "what differs between $1 and $2" "$(rig diff "$1" "$2")" "$wanted" || return
    rig diff "$1" "$2" >answers 2>message
    status=$?
    same "status of diff $1 $2" "$status" "$([ -z "$wanted" ] && echo 0 || echo 1)" && same messages "$(cat message)" ''
}

# The same table in form 2, in form 1, and with fields in another order or left out
alike() {
    wall w && rm -f old && rig back w old && image_of some "$(setup_of 2 010900"$(field dd:00 61:01 18:02)" 020900)" || return
    local a b
    for a in w old some; do
        for b in w old some; do differ $a $b </dev/null || return; done
    done
    new_wall w && new_wall v && differ w v </dev/null
}

each_setting_differs() {
    wall w && wall v || return
    { packet 01 00 18 01; packet 01 00 22 01 01 02 03; packet 01 00 32 01 02 03 04 05 06 05; packet 01 00 34 0D
      packet 01 00 42 4D 50; packet 01 00 61 04; packet 01 00 A3 01; packet 01 00 D0 03; packet 01 00 DD 02; } |
        rig play v >answers || return
    differ w v <<'END' || return
panel 1: power from on to off
panel 1: tiling from off to on
panel 1: frame compensation from off to on
panel 1: position from 1 (column 1, row 1) to 2 (column 2, row 1)
panel 1: wall from 1 wide, 1 high to 3 wide, 1 high
panel 1: brightness from 50 to 1
panel 1: colour from 50 to 2
panel 1: contrast from 50 to 3
panel 1: sharpness from 50 to 4
panel 1: tint from 50 to 5
panel 1: black level from 50 to 6
panel 1: gamma from 3 to 5
panel 1: colour temperature from 1 to 13
panel 1: treble from 50 to 77
panel 1: bass from 50 to 80
panel 1: fan from 1 to 4
panel 1: cold start from 2 to 1
panel 1: APM from 0 to 3
panel 1: power saving from 0 to 2
END
    packet 02 00 61 03 | rig play w >answers && rig diff v w >back_again
    same 'the way back' "$(tail -n 2 back_again)" 'panel 1: power saving from 2 to 0
panel 2: fan from 1 to 3'
}

groups_profiles_and_kinds() {
    new_wall w 1:9 2:255 3:9 && new_wall v 1:255 2:8 3:9:phoenix:15x10 && packet 03 00 22 01 00 14 1E | rig play v >answers || return
    differ w v <<'END' || return
panel 1: group from 9 to off
panel 2: group from off to 8
panel 3: profile from general to Phoenix
panel 3: kind from 5x5 to 15x10
panel 3: tiling from off to on
panel 3: position from 1 (column 1, row 1) to 20 (column 5, row 2)
panel 3: wall from 1 wide, 1 high to 15 wide, 2 high
panel 3: sharpness from 50 to 5
panel 3: tint from 50 to 0
END
    # the byte 08 is another wall on each kind, and 3 wide 2 high is another byte
    new_wall w 1:9 && new_wall v 1:9:15x10 && packet 01 00 22 00 00 02 08 | rig play w >answers &&
        packet 01 00 22 00 00 02 08 | rig play v >answers && differ w v <<'END' || return
panel 1: kind from 5x5 to 15x10
panel 1: wall from 3 wide, 2 high to 8 wide, 1 high
END
    packet 01 00 22 00 00 02 12 | rig play v >answers && differ w v <<<'panel 1: kind from 5x5 to 15x10' || return
    # and the tint's byte 32 is 50 on a general panel, +50 on a Phoenix one
    new_wall w 1:9 && new_wall v 1:9:phoenix && packet 01 00 32 32 32 32 05 32 32 03 | rig play w >answers &&
        packet 01 00 32 32 32 32 05 32 32 03 | rig play v >answers && differ w v <<'END' || return
panel 1: profile from general to Phoenix
panel 1: tint from 50 to +50
END
    packet 01 00 32 32 32 32 05 CE 32 03 | rig play v >answers && differ v w <<'END'
panel 1: profile from Phoenix to general
panel 1: tint from -50 to 50
END
}

panels_of_one_and_their_order() {
    new_wall w 1:9 2:9 3:9 4:9 && new_wall v 4:9 2:8 200:9 1:9 7:255 || return
    differ w v <<'END' || return
panel 2: group from 9 to 8
panel 3: only in w
panel 200: only in v
panel 7: only in v
the order of the panels: 1 2 4 in w, 4 2 1 in v
END
    new_wall v 1:9 9:9 2:9 3:9 4:9 && differ w v <<<'panel 9: only in v' || return
    new_wall v && differ v w <<'END'
panel 1: only in w
panel 2: only in w
panel 3: only in w
panel 4: only in w
END
}

# As diff's, 2 is for all that was wrong; 1 would say that they differ.
diff_refused() {
    wall w && image v 00 00 || return
    ends 2 'rig: v: refusal 12' rig diff w v && ends 2 'rig: v: refusal 12' rig diff v w &&
        ends 2 'there is no missing' rig diff w missing && ends 2 'rig: diff takes two setups' rig diff w &&
        ends 2 'rig: diff takes two setups' rig diff w w w || return
    new_wall v && rig diff w v >/dev/full 2>message
    same 'status without room for the lines' $? 2
}

test_that 'diff of the same setup, in any form and order of fields' alike
test_that 'diff names each setting' each_setting_differs
test_that 'diff of groups, profiles and kinds' groups_profiles_and_kinds
test_that 'diff of panels that one setup has, and of their order' panels_of_one_and_their_order
test_that 'diff of what is refused' diff_refused
