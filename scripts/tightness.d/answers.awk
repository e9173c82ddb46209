# The wrong answers of a group, which is an edit of `rt must-fail` that has several:
#
#   file: src/lib.rt          holds for the pairs after it
#   wrong: NAME               a wrong answer
#   in: FUNCTION              whose body it changes; or `law FILE.NAME`, which refuses a wrong definition
#   at: FACT                  the fact of its contract that fails, as the prover names it: `returns-then-a`. It may be left out.
#                             Where the group has several in one function, one that names its fact need not be tried alone
#   says: WORDS               what it gets wrong
#   old: TEXT                 a pair, and there may be several
#   new: TEXT
#
# A line for each: the crate, the group, the name, the function, the words, where its pairs change the crate, as
# FILE:LINE, with 0 for a text that does not stand there once, and the fact.
BEGIN {
    OFS = "\t"
    split(file, folder, "/")
    crate = folder[2]
    group = folder[4]
    sub(/\.edit$/, "", group)
}
function end_answer() {
    if (wrong != "") print crate, group, wrong, within, says, places, fact
    wrong = within = says = places = fact = ""
}
function line_of(old,    source, line, n, at, found) {
    source = "crates/" crate "/" changed
    while ((getline line <source) > 0) {
        n++
        if (index(line, old)) { at = n; found++ }
    }
    close(source)
    return found == 1 ? at : 0
}
/^file: / { changed = substr($0, 7) }
/^wrong: / { end_answer(); wrong = substr($0, 8) }
/^in: / { within = substr($0, 5) }
/^at: / { fact = substr($0, 5) }
/^says: / { says = substr($0, 7) }
/^old: / {
    if (wrong == "") wrong = "?"
    places = places (places == "" ? "" : " ") changed ":" line_of(substr($0, 6))
}
END { end_answer() }
