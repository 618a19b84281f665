# The keeping of the setup. Sourced by test.sh.

a_set_outlasts_the_program() {
    wall w
    echo 060100610462 | rig play w >/dev/null || return
    same report "$(echo 0501006266 | rig play w)" 060100620461
}

# Fan and ID only, as other tools may write it: not rewritten until a setting changes.
written_only_when_changed() {
    image w 01 09 00 61 01 04 00 00 01 02
    local before
    before=$(bytes w)
    touch -d 2001-01-01 w
    printf '0501006266\n\n060100610462\n0601006105\n06010061FF99\n' | rig play w >/dev/null || return
    same 'bytes after a get, silence, a set to what it was, NACK and NAV' "$(bytes w)" "$before" || return
    same 'time of the file' "$(stat -c %Y w)" "$(date -d 2001-01-01 +%s)" || return
    echo 060100610365 | rig play w >/dev/null || return
    same 'length after a set' "$(wc -c <w)" 47
}

a_link_is_followed() {
    mkdir -p folder && wall folder/w && rm -f w && ln -s folder/w w || return
    echo 060100610462 | rig play w >/dev/null || return
    [ -L w ] && same report "$(echo 0501006266 | rig play folder/w)" 060100620461
}

permissions_stay() {
    wall w && chmod 640 w
    echo 060100610462 | rig play w >/dev/null && same permissions "$(stat -c %a w)" 640
}

# a wall in a folder of its own, the fan of panel 1 at 2
fan_2_kept() {
    rm -rf stopped && mkdir stopped && wall stopped/w && echo 060100610264 | rig play stopped/w >/dev/null || return
    bytes stopped/w >old
}
# stop MOMENT STATUS: the program is stopped while it sets the fan to 4
stop() {
    fan_2_kept || return
    stopped "$1" 060100610462 play stopped/w
    same "status when $1" $? "$2"
}
old_setup_whole() {
    same 'no answer was printed' "$(cat answers)" '' || return
    same 'the setup' "$(bytes stopped/w)" "$(cat old)" && same 'the fan' "$(echo 0501006266 | rig play stopped/w)" 060100620267
}
new_setup_whole() {
    same 'the fan' "$(echo 0501006266 | rig play stopped/w)" 060100620461
}
nothing_beside() { same 'the folder' "$(ls stopped)" w; }
sets_as_before() {
    same 'a later set' "$(echo 060100610365 | rig play stopped/w)" 060100000601 &&
        same 'the fan' "$(echo 0501006266 | rig play stopped/w)" 060100620366
}

# the test program is the rig where it is not stopped
not_stopped() { stop never 0 && same answer "$(cat answers)" 060100000601 && new_setup_whole && nothing_beside; }
two_writes() { stop two-writes 0 && same answer "$(cat answers)" 060100000601 && new_setup_whole && nothing_beside; }
killed_in_write() { stop killed-in-write 137 && old_setup_whole && sets_as_before; }
killed_before_sync() { stop killed-before-sync 137 && old_setup_whole && sets_as_before; }
# what it left beside goes with the next start
killed_before_rename() {
    stop killed-before-rename 137 && same 'the new setup beside it' "$(cat stopped/w.*.new | wc -c)" 92 && old_setup_whole &&
        nothing_beside && sets_as_before
}
killed_after_rename() { stop killed-after-rename 137 && new_setup_whole && nothing_beside && sets_as_before; }
no_space() { stop no-space 2 && grep -q 'No space left' message && old_setup_whole && nothing_beside; }
sync_fails() { stop sync-fails 2 && grep -q 'cannot sync the new' message && old_setup_whole && nothing_beside; }
rename_fails() { stop rename-fails 2 && grep -q 'cannot rename' message && old_setup_whole && nothing_beside; }
# a file system that knows renames without flags alone
no_flags() {
    stop no-flags 0 && same answer "$(cat answers)" 060100000601 && new_setup_whole && nothing_beside || return
    stop no-flags-and-fails 2 && grep -q 'cannot rename' message && old_setup_whole && nothing_beside
}
folder_sync_fails() { stop folder-sync-fails 2 && grep -q 'has the new setup' message && new_setup_whole && nothing_beside; }

# The system's own refusal to write one byte more to any file; messages go through a pipe, which has no such limit.
file_size_limit() {
    fan_2_kept || return
    local message
    : >answers
    message=$( (ulimit -f 0; echo 060100610462 | rig play stopped/w 2>&1); echo "status $?")
    case $message in
    'rig: stopped/w: cannot write the new setup beside it: File too large'*'status 2') ;;
    *) echo "got $message"; return 1 ;;
    esac
    old_setup_whole && nothing_beside
}

# Permissions do not bind root, so root plays as nobody.
read_only_folder() {
    fan_2_kept || return
    chmod 666 stopped/w
    chmod 555 stopped
    local as= status
    [ "$(id -u)" -ne 0 ] || as='setpriv --reuid=65534 --regid=65534 --clear-groups'
    echo 060100610462 | $as ${RUN:-} ./rig play stopped/w >answers 2>message
    status=$?
    chmod 755 stopped
    same status "$status" 2 || { cat message; return 1; }
    grep -q 'cannot create a file beside it: Permission denied' message || { cat message; return 1; }
    old_setup_whole && nothing_beside
}

test_that 'a set outlasts the program' a_set_outlasts_the_program
test_that 'the file is written only when a setting changes' written_only_when_changed
test_that 'a link to the image is followed' a_link_is_followed
test_that 'the permissions of the image stay' permissions_stay
test_that 'the program of the tests below, not stopped' not_stopped
test_that 'half written at first, then the rest: the new setup' two_writes
test_that 'killed half through writing: the old setup' killed_in_write
test_that 'killed before the sync: the old setup' killed_before_sync
test_that 'killed between writing and renaming: the old setup' killed_before_rename
test_that 'killed after renaming: the new setup' killed_after_rename
test_that 'no space left: the old setup' no_space
test_that 'a sync that fails: the old setup' sync_fails
test_that 'a rename that fails: the old setup' rename_fails
test_that 'a file system that cannot exchange files' no_flags
test_that 'a folder that does not sync: the new setup, and a word' folder_sync_fails
test_that 'no file may grow: the old setup' file_size_limit
test_that 'a read-only folder: the old setup' read_only_folder
