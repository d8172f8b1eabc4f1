# Sourced by the scripts that build C over the library for a machine and run it, after `machine` is set, from the folder `top`.
# Makes the library for it in the folder `room`, which is removed at the end, and sets compile to the compiler with its flags,
# math to its library of mathematics, and start to what starts its programs here. A program for another machine is linked
# statically: it needs no loader then.
. "$top/tools/kit.sh"
need() { command -v "$1" >/dev/null || stop "no $1 on this machine: Debian's package $2 has it"; }
start=()
math=(-lm)
case $machine in
"$(uname -m)")
    need cc gcc
    compile=(cc)
    ;;
aarch64)
    need aarch64-linux-gnu-gcc gcc-aarch64-linux-gnu
    need qemu-aarch64 qemu-user
    compile=(aarch64-linux-gnu-gcc -static)
    start=(qemu-aarch64)
    ;;
*)
    stop "the library is made for x86_64 and aarch64, not for $machine"
    ;;
esac
room=$(mktemp -d)
trap 'rm -rf "$room"' EXIT
"$top/tools/make-library" "$room" "$machine" > "$room/said" 2>&1 || { cat "$room/said" >&2; exit 1; }
compile+=(-std=c11 -O2 -Wall -Wextra -Wpedantic -Werror -I"$room")
