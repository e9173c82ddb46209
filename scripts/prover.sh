# What the scripts that call the prover have in common. It is sourced, in the root of the repository, and not run.
# shellcheck shell=bash
#
#   take_lock NAME               wait until no other script uses the prover here, and say so while waiting. rt itself lets one
#                                run work in a crate at a time, and says nothing of the whole
#   drop_lock                    let others use it
#   in_group COMMAND..           run a command with all that it starts in a process group, which is ended when this script
#                                is. rt starts provers in the background, where a shell lets nothing hear Ctrl-C
#   prove NAME COMMAND CRATE..   `rt COMMAND` in the folder of each crate, with a line on standard error for each one that is
#                                proved: `run` makes of a program crates/CRATE/out/CRATE, and runs it on nothing; `lib` makes
#                                of a static library crates/CRATE/out/libCRATE.a. All that rt says goes to target/rt.log, and
#                                where it fails to standard error
#   static_crates                print the names of the static libraries that C links, which are those of crates.txt that end
#                                in _c
#   has_crate CRATE              whether crates.txt lists it
#   has_wear                     whether the archive has the calls with wear, which are those of yawlspar_wear_c
#   make_archive NAME            the archive that C links, `$archive`, of these sources: rt compiles the static libraries anew
#                                each time that it makes one, so none is made where nothing has changed. `linked` is then the
#                                archive, and what stands for the calls that it lacks: what c-program links tests to
#
# NAME is that of the script, for what it says. The lock is one on the file .lock, which stays; what a script calls has
# it too.
. scripts/kit.sh

take_lock() { # NAME
    local fd=${YAWLSPAR_LOCK-} status=0
    command -v rt >/dev/null || { printf '%s: rt is not on PATH: install the Rattle kit, or add its bin/ to PATH\n' "$1" >&2; exit 2; }
    command -v flock >/dev/null || { printf '%s: flock is missing: install util-linux\n' "$1" >&2; exit 2; }
    # one that was handed on is held already, and taking it again is nothing
    [[ $fd =~ ^[0-9]+$ && /proc/self/fd/$fd -ef .lock ]] || exec {fd}>>.lock
    export YAWLSPAR_LOCK=$fd
    # 75 is what flock is told to say of a lock that another has
    flock -n -E 75 "$fd" || status=$?
    if [ "$status" -eq 75 ]; then
        printf '%s: another script uses the prover in this folder; waiting until it ends\n' "$1" >&2
        status=0
        flock "$fd" || status=$?
    fi
    [ "$status" -eq 0 ] || printf '%s: no lock can be taken in this folder: let nothing else use the prover in it\n' "$1" >&2
}

drop_lock() {
    exec {YAWLSPAR_LOCK}<&-
    unset YAWLSPAR_LOCK
}

in_group() { # COMMAND..
    local status=0 signal
    for signal in HUP INT TERM; do
        # shellcheck disable=SC2064 # the signal is this one
        trap "end_group $signal" "$signal"
    done
    set -m
    "$@" </dev/null &
    set +m
    wait "$!" || status=$?
    trap - HUP INT TERM
    return "$status"
}

end_group() { # SIGNAL
    trap - HUP INT TERM
    if [ -n "${!-}" ]; then
        kill -s TERM -- "-$!" 2>/dev/null || true
        wait "$!" 2>/dev/null || true
    fi
    # this script ends as by the signal
    kill -s "$1" $$
}

# Prints the lines of crates.txt without their comments: a name, `staticlib` and the like, a colon, and what it uses.
listed() { sed 's/#.*//' crates.txt; }
static_crates() { listed | sed -nE 's/^[[:blank:]]*([a-z0-9_]+_c)[[:blank:]]([^:]*[[:blank:]])?staticlib([[:blank:]][^:]*)?:.*/\1/p'; }
has_wear() { [[ $'\n'$(static_crates)$'\n' == *$'\nyawlspar_wear_c\n'* ]]; }
has_crate() { listed | grep -qE "^[[:blank:]]*$1([[:blank:]][^:]*)?:"; }

prove() { # NAME COMMAND CRATE..
    local said=target/rt.log crate
    take_lock "$1"
    for crate in "${@:3}"; do
        has_crate "$crate" || { printf '%s: crates.txt lists no crate %s\n' "$1" "$crate" >&2; exit 2; }
    done
    mkdir -p target
    if ! in_group follow "$@" >"$said"; then
        cat -- "$said" >&2
        exit 1
    fi
}

# Calls rt in the folder of each crate.
call_rt() { # COMMAND CRATE..
    local command=$1 crate
    # a static library is for any x86-64
    [ "$command" != lib ] || command='lib --cpu=x86-64'
    shift
    for crate; do
        # shellcheck disable=SC2086 # these are words
        (cd -- "crates/$crate" && exec rt $command) || return
    done
}

# Prints all that rt says, and on standard error a line for each crate that it proves: rt says `crate NAME: modules loaded=..
# checked=..` of what it has checked, and then `logic=proved` or `logic=not-proved`.
follow() { # NAME COMMAND CRATE..
    local name=$1 crate='' line told='' since=$SECONDS
    local checked='^crate ([a-z0-9_]+): modules loaded=[0-9]+ checked=([0-9]+)' kept='^rt: (nothing has changed|running out/)'
    shift
    if [ ! -d "crates/$2/out/incremental" ]; then
        told="proving $2 and what it rests on: many minutes on two cores the first time"
        printf '%s: %s\n' "$name" "$told" >&2
    fi
    call_rt "$@" 2>&1 | while IFS= read -r line; do
        printf '%s\n' "$line"
        if [ -z "$told" ] && ! [[ $line =~ $kept ]]; then
            told='proving what is new since the last time'
            printf '%s: %s\n' "$name" "$told" >&2
        fi
        if [[ $line =~ $checked ]]; then
            crate=${BASH_REMATCH[1]}
            [ "${BASH_REMATCH[2]}" -gt 0 ] || crate=''
        elif [[ $line == logic=proved* ]]; then
            [ -z "$crate" ] || printf '%s: %s proved (%s s)\n' "$name" "$crate" "$((SECONDS - since))" >&2
            crate='' since=$SECONDS
        fi
    done
}

# Makes the archive, where it is not the one of these sources and this kit: the static libraries in one file. docs/SPEED.md
# says why scripts and checks, and the calls with a map, are compiled apart.
archive=target/archive/libyawlspar.a
make_archive() { # NAME
    local sum=target/archive/sum kit toolchain crate crates=() files=()
    take_lock "$1"
    # shellcheck disable=SC2034 # it is for those that source this
    linked=("$archive")
    has_wear || linked=(-DNO_WEAR tests/c/no_wear.c "$archive")
    if [ -f "$archive" ] && [ -f "$sum" ] && [ "$(archive_sum)" = "$(cat "$sum")" ]; then return; fi
    for crate in $(static_crates); do
        crates+=("$crate")
        files+=("crates/$crate/out/lib$crate.a")
    done
    [ ${#crates[@]} -gt 0 ] || { printf '%s: crates.txt lists no static library whose name ends in _c\n' "$1" >&2; exit 2; }
    prove "$1" lib "${crates[@]}"
    find_kit "$1"
    mkdir -p target/archive
    rm -f -- "$archive"
    "$toolchain/bin/llvm-ar" qcLs "$archive" "${files[@]}"
    archive_sum >"$sum"
}

archive_sum() {
    {
        rt version
        find crates crates.txt "$archive" -path 'crates/*/out' -prune -o -type f -print0 | sort -z | xargs -0 sha256sum --
    } | sha256sum
}
