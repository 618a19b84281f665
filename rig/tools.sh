#!/bin/sh
# Installs what is missing, on Debian and its kin: for the rig a C compiler for x86-64 and, on another processor, qemu's user
# emulation; `tools.sh test` also what its tests and the gate need, `tools.sh bench` what the benchmark needs. Does nothing
# where all is there.
set -eu
PATH=$PATH:/usr/sbin
scratch=$(mktemp -d)
trap 'rm -rf "$scratch"' EXIT

missing=
need() { # need PACKAGE TEST...
    package=$1
    shift
    "$@" >/dev/null 2>&1 || missing="$missing $package"
}
has_command() { command -v "$1"; }
# a program that is linked as the rig's are
links() { printf 'int main(void) { return 0; }\n' | "$@" -x c - -o "$scratch/program"; }

case "$(uname -m)" in
x86_64)
    need libc6-dev links gcc -static
    ;;
aarch64)
    need gcc-x86-64-linux-gnu has_command x86_64-linux-gnu-gcc
    need libc6-dev-amd64-cross links x86_64-linux-gnu-gcc -static
    need libc6-dev links gcc
    need qemu-user has_command qemu-x86_64
    ;;
*)
    echo "rig/tools.sh: no way is known to run x86-64 programs on $(uname -m)" >&2
    exit 2
    ;;
esac
need gcc has_command gcc
need make has_command make
case "${1:-}" in
test)
    need python3 has_command python3
    need pkg-config has_command pkg-config
    need groff-base has_command groff
    need logrotate has_command logrotate
    need procps has_command pkill
    ;;
bench)
    need qemu-user has_command qemu-x86_64
    ;;
esac
[ -n "$missing" ] || exit 0

as_root=
if [ "$(id -u)" -ne 0 ]; then
    if ! command -v sudo >/dev/null; then
        echo "rig/tools.sh: run as root, or install yourself:$missing" >&2
        exit 2
    fi
    as_root=sudo
fi
echo "installing:$missing"
if ! { $as_root apt-get update -q &&
    DEBIAN_FRONTEND=noninteractive $as_root apt-get install -q -y --no-install-recommends $missing; } >"$scratch/log" 2>&1; then
    cat "$scratch/log" >&2
    exit 2
fi
