# The theorems of a crate's proofs/Tight.antt that speak of what a contract allows. A line for each: the crate, the file, its name,
# its function, and what it is of: `result`, the place among the parameters of a lent buffer, or `other` where it has
# neither form.
#
#   pub NAME : OneResult ALIAS.Learnt
#   pub NAME : OneExit ALIAS.Learnt (λ κ s. s.1.1.0.now)       the buffer at place 2
#
# ALIAS is of `use Rattle.CRATE.proofs.FUNCTION.Reads as ALIAS`; the two forms are those of `words`.
BEGIN {
    OFS = "\t"
    split(file, folder, "/")
    crate = folder[2]
    own = "use Rattle." crate ".proofs."
    form["OneResult"] = form["OneExit"] = 0
}
# a declaration goes on in the lines that are indented
/^[^ ]/ { declaration(text); text = $0; next }
{ sub(/^ +/, " "); text = text $0 }
END { declaration(text) }

function declaration(text,    word, count, name, path, is_of) {
    sub(/ *--.*/, "", text)
    count = split(text, word, " ")
    if (word[1] == "use" && word[3] == "as" && text ~ /\.Reads as /) {
        path = substr(text, 1, index(text, ".Reads as ") - 1)
        sub(/.*\.proofs\./, "", path)
        gsub(/\./, "::", path)
        alias[word[4]] = index(text, own) == 1 ? path : "of another crate"
        return
    }
    if (index(text, "use Rattle.words.") == 1 && text ~ /\.Allowed\.\{/) {
        for (name in form) if (text ~ ("[{ ]" name "[,}]")) form[name] = 1
        return
    }
    if (word[1] != "pub" || word[3] != ":" || text !~ /\.Learnt/) return
    name = word[5]
    sub(/\.Learnt$/, "", name)
    is_of = "other"
    if (word[4] == "OneResult" && form["OneResult"] && count == 5) is_of = "result"
    if (word[4] == "OneExit" && form["OneExit"]) {
        path = text
        if (sub(/^.*\.Learnt \(λ κ s\. s/, "", path) && sub(/\.0\.now\)$/, "", path) && path ~ /^(\.1)*$/) is_of = length(path) / 2
    }
    print crate, file, word[2], name in alias ? alias[name] : "unknown", is_of
}
