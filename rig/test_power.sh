# Power off to a panel that is off, by example: 02's A5, and 001's section 3.1.1 in packets with a group byte. Sourced by
# test.sh.

off_twice() { wall w && in_one_run <<<'06010018011E 060100000601' && stays '06 01 00 18 01 1E' 06010000181F; }
on_twice() { wall w && stays '06 01 00 18 02 1D' 060100000601 && stays '06 01 00 18 02 1D' 060100000601; }

gets_between() {
    wall w && in_one_run <<'END'
050100191D 06010019021C
06010018011E 060100000601
050100191D 06010019011F
06010018011E 06010000181F
050100191D 06010019011F
06020018011D 060200000602
06010018021D 060100000601
06010018021D 060100000601
050100191D 06010019021C
06020018011D 06020000181C
06010018011E 060100000601
END
}

# panel 1 off, panel 2 on, both in group 9; panel 3 is in another
off_to_a_group() {
    new_wall w 1:9 2:9:phoenix 3:8 && in_one_run <<'END' || return
06010018011E 060100000601
060009180116 -
050100191D 06010019011F
050200191E 06020019011C
050300191F 06030019021E
END
    stays '06 00 09 18 01 16' - && stays '06 02 09 18 01 14' - && stays '06 02 00 18 01 1D' 06020000181C
}

off_to_all() {
    new_wall w 1:9 2:255:phoenix && in_one_run <<'END' || return
06000018011F -
050100191D 06010019011F
050200191E 06020019011C
END
    stays '06 00 00 18 01 1F' - && stays '06 02 00 18 01 1D' 06020000181C && in_one_run <<'END'
06020018021E 060200000602
06000018011F -
050200191E 06020019011C
END
}

# the sets of a panel that is off, and what else in 001 has the code of power
other_bursts_while_off() {
    wall w && in_one_run <<'END'
06010018011E 060100000601
060100610462 060100000601
060100610462 060100000601
0501006266 060100620461
06010018041B 06010000181F
0701001801011E 06010000181F
06010018011F 060100001512
06030018011C -
0601FF1801E1 -
06010018021D 060100000601
END
}

# power off, and nothing else in the record
form_1_that_is_off() { image w 01 09 18 01 01 00 00 01 01 && stays '06 01 00 18 01 1E' 06010000181F; }

test_that "off twice: ACK, then 001's NAV" off_twice
test_that 'on twice: ACK both times' on_twice
test_that 'off and on, with gets of power between' gets_between
test_that 'off to a group, one panel off and one on' off_to_a_group
test_that 'off to all, twice' off_to_all
test_that 'other bursts to a panel that is off' other_bursts_while_off
test_that 'off to a form 1 setup that is off' form_1_that_is_off
