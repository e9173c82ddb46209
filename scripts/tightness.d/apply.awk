# Applies an edit of `rt must-fail` to a crate, as rt does: `awk -v crate=FOLDER -v alone=NAME -f apply.awk EDIT`, of which only
# the pairs of the wrong answer NAME where one is given. Each `old: TEXT` stands once in the file of the `file:` before it, as
# the pairs before it have left that, and becomes the TEXT of the `new:` after it. Where one does not, it says so and ends with
# 1, and the crate is then half edited.
/^file: / { path = crate "/" substr($0, 7) }
/^old: / { old = substr($0, 6) }
/^wrong: / { is_left_out = alone != "" && substr($0, 8) != alone }
/^new:/ && !is_left_out { replace(substr($0, 5, 1) == " " ? substr($0, 6) : substr($0, 5)) }
END { if (failed) exit 1 }

function replace(new,    text, line, at, rest) {
    text = ""
    while ((getline line <path) > 0) text = text line "\n"
    close(path)
    at = index(text, old)
    rest = substr(text, at + length(old))
    if (old == "" || !at || index(rest, old)) {
        print "an `old:` text does not stand once in " path ": " old
        failed = 1
        exit
    }
    printf "%s", substr(text, 1, at - 1) new rest >path
    close(path)
    old = ""
}
