# The tests of the salvage program, for tests/run: on images of tests/salvage.txt and tests/flooded.hex, on the longest image,
# and where a file or a stream fails. Each holds standard output, the file and standard error to what they must be.
image=$work/image file=$work/kept

# hex_of FILE: its bytes, or - where there is none
hex_of() { if [ -e "$1" ]; then od -An -v -tx1 "$1" | tr -d ' \n' | tr a-f A-F; else printf -; fi; }
# image_of HEX..
image_of() { echo "$@" | tools/bytes >"$image"; }
# zeros COUNT
zeros() { head -c "$1" /dev/zero; }
# written_out: FRESH and REST of tests/salvage.txt as bytes, all in one run of digits
written_out() {
    sed -e 's/FRESH/010100 180102 220400000101 REST/g' \
        -e 's/REST/320732323232323203 340101 42023232 610101 A30102 D00100 DD0100/g' | tr -d ' '
}
# numbers FORM COUNT FIRST STEP: so many, each behind the one before it by the step, in printf's form
numbers() {
    n=0
    while [ $n -lt "$2" ]; do
        printf "$1" $(($3 + n * $4))
        n=$((n + 1))
    done
}
# status: that a run did not end well, beside what it said
status() { echo "status $?" >>"$work/said"; }
# salvages WHAT WANTED [ARGUMENT..]: salvage on the image, with no file yet: what it prints, the file, what it says
salvages() {
    rm -f "$file"
    salvages_beside "$@"
}
# salvages_beside WHAT WANTED [ARGUMENT..]: the same, whatever file there is
salvages_beside() {
    what=$1 wanted=$2
    shift 2
    tools/run salvage "$@" <"$image" >"$work/out" 2>"$work/said" || status
    result "$what" "$wanted"
}
# result WHAT WANTED: lines end in '/', the parts are parted by '|', and the folder is left out of names
result() {
    gives "salvage $1" "$(tr '\n' '/' <"$work/out")|$(hex_of "$file")|$(sed "s|$work/||g" "$work/said" | tr '\n' '/')" "$2"
}

images_tests() {
    while IFS='|' read -r input lines kept; do
        case $input in '#'*) continue ;; esac
        image_of "$input"
        salvages "on '$input'" "$(echo "$lines" | sed 's/^ *//; s/ *$//')|$(echo "$kept" | written_out)|" "$file"
    done <tests/salvage.txt
}

flooded_tests() {
    lines=$(tr '\n' '/' <crates/salvage/stdout)
    tools/bytes <tests/flooded.hex >"$image"
    gives 'the stored input of salvage' "$(hex_of crates/salvage/stdin)" "$(hex_of "$image")"
    kept=$(sed 's/#.*//' tests/flooded_kept.hex | tr -d ' \n')
    salvages 'of the flooded box' "$lines|$kept|" "$file"
    salvages 'with no argument' "$lines|-|"
    salvages 'in a folder that is not there' "$lines|-|nowhere/kept: No such file or directory/" "$work/nowhere/kept"
    salvages 'with an empty name' "$lines|-|: No such file or directory/" ''
    echo old >"$file"
    salvages_beside 'where the file is there' "$lines|6F6C640A|kept: File exists/" "$file"
    rm "$file"
    { head -c 60 "$image" && sleep 0.3 && tail -c +61 "$image"; } | tools/run salvage "$file" >"$work/out" 2>"$work/said" || status
    result 'of an image that comes in parts' "$lines|$kept|"
    usage='usage: salvage [FILE] < IMAGE/'
    usage="$usage""The faults of the setup image go to standard output, and what is kept goes to FILE, which must not exist./"
    salvages 'with two arguments' "|-|$usage" "$file" "$file"
    salvages 'with a name that is too long' "|-|$usage" "$(zeros 4097 | tr '\0' x)"
}

length_tests() {
    { printf '\001\011\000' && zeros 4089 && printf '\000\000\001\002'; } >"$image"
    salvages 'on 4,096 bytes' "1 17 00/|$(echo 01 09 00 FRESH 00 00 01 02 | written_out)|" "$file"
    { printf '\001\011\000' && zeros 4090 && printf '\000\000\001\002'; } >"$image"
    salvages 'on 4,097 bytes' 'too-long/|-|' "$file"
    zeros 100000 >"$image"
    salvages 'on 100,000 bytes' 'too-long/|-|' "$file"
}

# The largest image does not fit a file of 1,024 bytes.
streams_tests() {
    rm -f "$file"
    tools/run salvage "$file" <"$work" >"$work/out" 2>"$work/said" || status
    result 'on a folder' '|-|standard input: Is a directory/'
    image_of 00 09 00 00 00 01 02
    : >"$work/out"
    tools/run salvage "$file" <"$image" >/dev/full 2>"$work/said" || status
    result 'where standard output is full' '|-|standard output: No space left on device/'
    image_of "$(numbers '%02X 09 ' 32 1 1)$(numbers '00 %02X ' 32 0 2)20 01"
    (trap '' XFSZ && ulimit -f 1 && tools/run salvage "$file" <"$image" >"$work/out" 2>"$work/said") || status
    result 'where the file has no room' '|-|kept: File too large/'
    salvages 'of 32 panels' "|$(numbers '%02X 09 00 FRESH ' 32 1 1 | written_out)$(numbers %04X 32 0 43)2002|" "$file"
}

salvage_tests() {
    images_tests
    flooded_tests
    length_tests
    streams_tests
}
