# Sourced by the scripts that need the Rattle kit. Sets kit to its folder, the one above rt's own, and tools to its toolchain.
stop() { echo "${0##*/}: $1" >&2; exit 1; }
command -v rt >/dev/null || stop "the Rattle kit's command rt is not on the PATH"
[ "$(uname -m)" = x86_64 ] || stop "the Rattle kit runs on x86_64 alone, and this machine is $(uname -m)"
kit=$(cd "$(dirname "$(readlink -f "$(command -v rt)")")/.." && pwd -P)
tools=$kit/toolchain
[ -x "$tools/bin/clang" ] || stop "the kit at $kit has no clang"
