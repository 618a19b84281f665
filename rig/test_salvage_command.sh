# Salvage as a command: its words and its files. Sourced by test.sh.

# beside each line what it means
in_words() {
    image_of w "$(setup_of 2 "010900$(field 61:05 18:01 62:04)" 010800 020000 "030900$(field 01:03 22:01000208 dd:)" 04 00ff00 \
        "05ff02$(field 61:05)")" && rm -f n && rig salvage w n >told || return
    same words "$(cat told)" "\
1 18 61   record 1, ID 1: fan has a value that is not allowed; the fresh value is in its place
1 17 62   record 1, ID 1: reading stops at code 62, which is of no field; what was not read before it is fresh
2 16      record 2, ID 1: dropped, since a record that was kept has its ID
3 16      record 3, ID 2: dropped, since its group is 0
4 18 01   record 4, ID 3: kind has a value that is not allowed; the fresh value is in its place
4 17 DD   record 4, ID 3: reading stops at a field of power saving; what was not read before it is fresh
5 16      record 5, ID 4: dropped, since it is too short
6 16      record 6, ID 0: dropped, since its ID is 0
7 16      record 7, ID 5: dropped, since its profile is unknown
2 panels of 7 records to be kept in n" &&
        same 'what is kept' "$(bytes n)" "$(setup_of 2 "$(kept 010900 18:01)" "$(kept 030900 22:01000208)")"
}

# a setup that is refused for a record or a field, and no other, names the command
the_way_to_it() {
    local command words='rig: what is good of it can be kept in a new file NEW: rig salvage w NEW'
    rm -f n && image_of w "$(setup_of 2 "010900$(field 61:05)")" || return
    for command in 'show w' 'play w' 'back w n'; do
        ends 1 "$words" rig $command || return
    done
    image_of w 0003 && ends 1 'refusal 12' rig show w && ! grep -q salvage message
}

new_files_only() { image_of w "$(setup_of 2 "010900$(field 61:05)")" && leaves_files_alone salvage; }

# told_all_the_same WORDS: the last salvage ended with 2 and these words, and its lines were printed
told_all_the_same() {
    same status $? 2 && grep -q "$1" message && same 'the lines' "$(cut -c 1-7 answers | tr '\n' '/')" '1 18 61/1 panel/' &&
        [ ! -e n ] || { cat message; return 1; }
}
# where NEW cannot be kept, the lines are told and no file is left; where they cannot be told, there is no file
new_cannot_be_kept() {
    image_of w "$(setup_of 2 "010900$(field 61:05)")" && rm -rf n missing folder && mkdir folder || return
    rig salvage w missing/n >answers 2>message
    told_all_the_same 'No such file' || return
    stopped no-space '' salvage w folder/n
    told_all_the_same 'No space left' && same 'the folder' "$(ls folder)" '' || return
    for_full_output && wall w && for_full_output
}
# also where there is no line of a fault
for_full_output() {
    rig salvage w n >/dev/full 2>message
    same status $? 2 && grep -q 'standard output' message && [ ! -e n ]
}

# up to 65,536 bytes, of which a record may have all but six
large_files() {
    rm -f n && { printf '\1\11\0\141\1\4'; head -c 65526 /dev/zero; printf '\0\0\1\2'; } >w && rig salvage w n >told || return
    same 'the line' "$(head -n 1 told | cut -c 1-8)" '1 17 00 ' && same 'what is kept' "$(bytes n)" \
        "$(setup_of 2 "$(kept 010900 61:04)")" && rm n && { printf '\1'; cat w; } >over || return
    ends 1 'rig: over: over 65536 bytes' rig salvage over n && [ ! -e n ]
}

test_that 'salvage: each line in words' in_words
test_that 'salvage: a refused setup names the command' the_way_to_it
test_that 'salvage: leaves files that are there alone' new_files_only
test_that 'salvage: a new file that cannot be kept' new_cannot_be_kept
test_that 'salvage: files of 65,536 bytes' large_files
