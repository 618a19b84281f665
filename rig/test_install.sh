# What `make install` puts in place, as a C user meets it. Sourced by test.sh.

root=$(dirname "$parts")
installed='bin/rig include/undivarro.h lib/libundivarro.a lib/pkgconfig/undivarro.pc share/man/man1/rig.1'
# make_alone GOAL ARGUMENT...: a make of its own, which takes over nothing of the one that runs the tests
make_alone() {
    env -u MAKEFLAGS -u MAKELEVEL make --no-print-directory -C "$root" "$@" >message 2>&1 || { cat message; return 1; }
}
install_to() { make_alone install "$@"; }
# files_in FOLDER: sorted, but for the program that the emulator runs
files_in() { (cd "$1" && find . -type f ! -path '*/undivarro/*' | sort); }
# prints EXAMPLE WORDS: the example with the copy that pkg-config finds; under the emulator without other libraries
prints() {
    local flags
    flags=$(pkg-config --cflags --libs undivarro) || return
    ${X86_CC:-gcc} -Wall -Wextra -Werror "$root/examples/$1.c" $flags ${RUN:+-static} -o example || return
    same "the example $1" "$(${RUN:-} ./example)" "$2"
}
links() {
    prints one_burst '06 01 00 19 02 1C refusal 0, setup of 47 bytes' && prints scene '6 bytes: 06 01 00 00 06 01
0 bytes:
6 bytes: 06 01 00 62 02 67
refusal 0, setup of 47 bytes'
}

in_place() {
    install_to PREFIX="$work/there" && same 'the files' "$(files_in there)" "$(printf './%s\n' $installed | sort)" || return
    cmp there/include/undivarro.h "$root/include/undivarro.h" && there/bin/rig new there/w 1:9 2:9 || return
    same 'the installed rig' "$(echo 050100191D | there/bin/rig play there/w)" 06010019021C
}
linked_by_pkg_config() {
    install_to PREFIX="$work/there" || return
    local -x PKG_CONFIG_PATH=$work/there/lib/pkgconfig
    same 'the library' "$(echo $(pkg-config --libs undivarro))" "-L$work/there/lib -lundivarro" && links
}
# DESTDIR stands in front of the files and not in them.
staged() {
    rm -rf stage && install_to PREFIX=/opt/box DESTDIR="$work/stage" || return
    local file
    for file in $installed; do [ -f "stage/opt/box/$file" ] || { echo "no $file"; return 1; }; done
    grep -rlF "$work" stage && return 1
    local -x PKG_CONFIG_PATH=$work/stage/opt/box/lib/pkgconfig
    same 'the library' "$(echo $(pkg-config --libs undivarro))" '-L/opt/box/lib -lundivarro' || return
    PKG_CONFIG_SYSROOT_DIR=$work/stage links
}

# The library where a packager of Debian wants it, the header and the page in places of their own; then all of it taken away,
# and what was there before stays.
in_other_folders() {
    local folders=(PREFIX=/usr LIBDIR=/usr/lib/x86_64-linux-gnu INCLUDEDIR=/opt/include MANDIR=/opt/man "DESTDIR=$work/other")
    rm -rf other && mkdir -p other/usr/bin && echo mine >other/usr/bin/mine && install_to "${folders[@]}" || return
    same 'the files' "$(files_in other)" "$(sort <<'END'
./opt/include/undivarro.h
./opt/man/man1/rig.1
./usr/bin/mine
./usr/bin/rig
./usr/lib/x86_64-linux-gnu/libundivarro.a
./usr/lib/x86_64-linux-gnu/pkgconfig/undivarro.pc
END
)" || return
    local -x PKG_CONFIG_PATH=$work/other/usr/lib/x86_64-linux-gnu/pkgconfig PKG_CONFIG_SYSROOT_DIR=$work/other
    links || return
    make_alone uninstall "${folders[@]}" && same 'what is left' "$(cd other && find . -type f; ls -d usr/lib/*/undivarro 2>/dev/null)" \
        ./usr/bin/mine
}

# All that is on the path but for the formatter, the emulator and what installs packages, whose call would be told.
without_packages() {
    rm -rf path built bare && mkdir path || return
    local folder tool IFS=:
    for folder in $PATH; do ln -s "$folder"/* path 2>/dev/null; done
    unset IFS
    rm -f path/groff path/qemu-* path/sudo path/apt-get
    printf '#!/bin/sh\necho called >>%s/called\nexit 1\n' "$work" | tee path/apt-get >path/sudo
    chmod +x path/apt-get path/sudo && rm -f called || return
    PATH=$work/path make_alone install PREFIX="$work/bare" rig_out="$work/built" && [ -x built/bin/rig ] && [ -x bare/bin/rig ] &&
        [ ! -e called ]
}

# Each command and option that `rig --help` has, in a page that the formatter takes without a word.
man_page() {
    install_to PREFIX="$work/there" || return
    local page=there/share/man/man1/rig.1 word words
    same 'what the formatter says' "$(groff -man -Tutf8 -ww -z "$page" 2>&1)" '' || return
    groff -man -Tascii -P-cbou "$page" >page || return
    mapfile -t words < <(rig --help | sed -nE 's/^(usage:|      ) (rig [a-z]+).*/\2/p'; rig --help | grep -oE -- '--[a-z]+' | sort -u)
    same 'commands and options' "${#words[@]}" 12 || return
    for word in "${words[@]}"; do grep -qF -- "$word" page || { echo "no $word in the man page"; return 1; }; done
    ! grep '@' "$page"
}

test_that 'make install puts everything in place' in_place
test_that 'the examples link by pkg-config against the installed copy' linked_by_pkg_config
test_that 'make install with DESTDIR' staged
test_that 'the man page' man_page
test_that 'make install in other folders, and make uninstall' in_other_folders
test_that 'make install installs no packages' without_packages
