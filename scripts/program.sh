# What scripts/bench and scripts/wear have in common. It is sourced and not run.
# shellcheck shell=bash
#
#   run_program NAME [ARG..]     the script scripts/NAME with these arguments: proves the program NAME, runs it on the script
#                                that the arguments name, prints what it prints, and says what was not understood
export LC_ALL=C

die() { printf '%s: %s\n' "$name" "$*" >&2; exit 2; }
note() { printf '%s: %s\n' "$name" "$*" >&2; }

run_program() { # NAME [ARG..]
    name=$1 most=65536
    shift
    take_input "$@"
    cd -- "$(dirname -- "${BASH_SOURCE[0]}")/.." || exit
    . scripts/prover.sh

    # The program is opened while the lock is held: what others do to out/ after that is nothing to it
    prove "$name" run "$name"
    exec 4<"crates/$name/out/$name"
    drop_lock

    temp=$(mktemp -d)
    trap 'rm -rf -- "$temp"' EXIT
    if [ -t 0 ]; then note 'type the script, and Ctrl-D at its end'; fi
    head -c $((most + 1)) >"$temp/all" 2>/dev/null || die "$script cannot be read"
    scripts/c-program run -i "$temp/all" /dev/fd/4 >"$temp/out" || die "the program ended with status $?"
    exec 4<&-
    cat -- "$temp/out" 2>/dev/null || {
        # who reads no further, as head does, needs no telling
        [ $? -eq 141 ] || note 'the output cannot be written'
        exit 1
    }
    tell_lines
}

# Puts the script that the arguments name on standard input, and its name in `script`; or prints the help, and ends.
take_input() { # [ARG..]
    case $#${1-} in
    1--help | 1-h)
        sed -n '2,/^[^#]/s/^# \{0,1\}//p' "${BASH_SOURCE[-1]}"
        exit
        ;;
    0 | 1-) ;;
    1-*) die "there is no option $1: scripts/$name --help tells what there is" ;;
    1*)
        [ -e "$1" ] || die "there is no file $1"
        [ ! -d "$1" ] || die "$1 is a folder, and not a script"
        { exec <"$1"; } 2>/dev/null || die "$1 cannot be read"
        ;;
    *) die "usage: scripts/$name [FILE]" ;;
    esac
    script=${1-standard input}
    [ "$script" != - ] || script='standard input'
}

# Prints the numbers of the lines that were not understood: bench prints a ? for each; of the others the script's lines tell.
not_understood() {
    if [ "$name" = bench ]; then
        grep -nx '?' "$temp/out"
    else
        # no grep is sure to take a NUL
        tr '\000' '\001' <"$temp/in" | grep -anvxE '[TL] ([0-9A-F]{2}){1,64}|K [0-9]{1,5}'
    fi | cut -d : -f 1
}

# Says that the script is too long, how many of its lines were not understood, and why the first of them was not.
tell_lines() {
    local long=0 many first why
    head -c "$most" -- "$temp/all" >"$temp/in"
    if [ "$(wc -c <"$temp/all")" -gt "$most" ]; then
        long=1
        note "$script has more than 65,536 bytes; those past them were not read"
    fi
    not_understood >"$temp/lines" || true
    many=$(wc -l <"$temp/lines")
    [ "$many" -gt 0 ] || return 0
    read -r first <"$temp/lines"
    # the last line that was read may be a part of one
    if [ "$long" -eq 1 ] && [ "$first" -gt "$(wc -l <"$temp/in")" ]; then
        why='its end was not read'
    else
        why=$(why_not "$first")
    fi
    if [ "$many" -eq 1 ]; then
        note "line $first was not understood: $why"
    else
        note "$many lines were not understood; the first is line $first: $why"
    fi
}

# why_not NUMBER: prints why the line of this number in $temp/in was not understood.
why_not() {
    local line
    # no shell can hold a NUL
    line=$(sed -n "$1{p;q;}" "$temp/in" | tr '\000' '\001')
    case $line in
    $'\xEF\xBB\xBF'*) echo 'a byte order mark stands before it' ;;
    $'\xFF\xFE'* | $'\xFE\xFF'*) echo 'the script is UTF-16, and not plain text' ;;
    *$'\r') echo 'it ends in CR LF, and should end in LF alone' ;;
    '') echo 'it is empty' ;;
    [[:space:]]*) echo 'a space or tab stands before its letter' ;;
    [tlk]*) echo 'its letter is in lower case' ;;
    [!TLK]*) echo 'it begins with none of T, L and K, and there are no comments' ;;
    ? | ?\ ) echo 'nothing stands behind its letter' ;;
    ?[!\ ]*) echo 'no space stands behind its letter' ;;
    ??*[[:space:]]*) echo 'it has a space or tab beside the one behind its letter' ;;
    K\ *[!0-9]*) echo 'its ticks are not in decimal digits' ;;
    K*) echo 'its ticks have more than five digits' ;;
    ??*[a-f]*) echo 'it has hex digits in lower case' ;;
    ??*[!0-9A-F]*) echo 'it has characters that are no hex digits' ;;
    *)
        if [ $((${#line} % 2)) -ne 0 ]; then
            echo 'it has an odd number of hex digits'
        else
            echo "it has $(((${#line} - 2) / 2)) pairs of hex digits, and 64 is the most"
        fi
        ;;
    esac
}
