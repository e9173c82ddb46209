# Finds the Rattle kit. It is sourced and not run.
# shellcheck shell=bash
#
#   find_kit NAME     set `kit` to the kit's folder, and `toolchain` to its compiler, linker and C library, which are for
#                     x86-64 alone. NAME is that of the script, for what it says where there is none

find_kit() { # NAME
    local rt machine
    machine=$(uname -m)
    rt=$(command -v rt) || { printf '%s: rt is not on PATH: install the Rattle kit, or add its bin/ to PATH\n' "$1" >&2; exit 2; }
    rt=$(readlink -f "$rt")
    kit=${RATTLE_HOME:-$(dirname "$(dirname "$rt")")}
    toolchain=$kit/toolchain
    [ "$machine" = x86_64 ] || { printf '%s: the kit at %s is for x86-64, and this processor is %s\n' "$1" "$kit" "$machine" >&2; exit 2; }
    [ -d "$toolchain" ] || { printf '%s: the kit at %s has no toolchain\n' "$1" "$kit" >&2; exit 2; }
}
