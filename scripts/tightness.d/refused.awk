# What was refused in the log of a group for a fact of its own. A line for each: the crate, the group, the function or
# the law, and of a function the fact, as the prover names it after the source; the fact is ? for a proof that is unfit for
# the code, which refuses nothing.
#
# A function is refused by itself where a fact of its contract fails: what it leaves when it returns (`returns`,
# `returns-then-a` and so on), or after a turn of a loop (`loop-i-preserved`, or `loop-i-preserved-then-a` where the turn
# ends by `continue`), in its own proof, or in the one that is tried for it where it has none. That an error before it
# stopped a fact ("was not admitted"), or that the proof is unfit for the code ("has no ..", "is not in scope"), is none of
# these, and neither is that it calls what is not proved. The prover names facts after the source: an edit that changes a
# condition's text, and not only what it says, makes the proof unfit. A line that begins with a blank goes on with the one
# before it.
#
#   ./proofs/both/Answers.antt:6:20: error: `returns-then-a`: ..
#   ./proofs/Bits.antt:6:20: error: `put_at`: ..
#   fn words::both: no proof: expected answers in ./proofs/both/Answers.antt; `search` did not prove `returns-then-a`, `returns-else-a`
BEGIN { OFS = "\t"; of_fact = "^(returns(-.+)?|loop-(.+-)?preserved(-.+)?)$" }
function judge(said,    place, fact, is_unfit, part, count, k) {
    if (said ~ /^(\.\/)?proofs\/[^:]*\.antt:[0-9]+:[0-9]+: error: `[^`]*`: / && said !~ / was not admitted/) {
        is_unfit = said ~ /has no (`|field )|is not in scope|is no name/
        place = said
        sub(/^(\.\/)?proofs\//, "", place)
        fact = place
        sub(/\.antt:.*/, "", place)
        sub(/^[^`]*`/, "", fact)
        sub(/`.*/, "", fact)
        if (sub(/\/(Answers|Proof)$/, "", place)) {
            if (fact !~ of_fact) return
            gsub(/\//, "::", place)
            print crate, group, place, is_unfit ? "?" : fact
        } else if (!is_unfit) {
            gsub(/\//, ".", place)
            print crate, group, "law " place "." fact
        }
    }
    if (said ~ /^fn [^ ]*: no proof: .*`search` did not prove `/) {
        place = said
        sub(/^fn /, "", place)
        sub(/: .*/, "", place)
        sub(/.*`search` did not prove /, "", said)
        count = split(said, part, "`")
        for (k = 2; k <= count; k += 2) if (part[k] ~ of_fact) print crate, group, substr(place, length(crate) + 3), part[k]
    }
}
/^ / { sub(/^ +/, " "); said = said $0; next }
{ judge(said); said = $0 }
END { judge(said) }
