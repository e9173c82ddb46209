# Holds functions, theorems, wrong answers, what was refused and the pages against each other; `mode` is that of
# scripts/tightness. With --write the page goes to a file with its list anew.
function wrong(message) { print "tightness: " message; bad++ }
# the names between backquotes of a text
function quoted(text, names,    n, parts, k) {
    n = split(text, parts, "`")
    for (k = 2; k <= n; k += 2) names[k / 2] = parts[k]
    return int(n / 2)
}
function edit_file(crate, group) { return "crates/" crate "/must-fail/" group ".edit" }
function list(line) { list_line[++list_count] = line }

BEGIN { FS = "\t"; start = "<!-- list of scripts/tightness -->"; end = "<!-- end of the list -->" }

stage == "crates" {
    sub(/#.*/, "")
    if (sub(/:.*/, "")) { gsub(/[ \t]/, ""); crates[++crate_count] = $0; is_crate[$0] = 1 }
    next
}
stage == "functions" {
    key = $1 "::" $2
    functions[++function_count] = key
    crate_of[key] = $1
    name_of[key] = $2
    is_public[key] = $3
    place[key] = $5 ":" $6
    source[key] = substr($5, length("crates/" $1 "/") + 1)
    first[key] = $6
    last[key] = $7
    results[key] = ($10 ? "result" : "") ($10 && $11 != "" ? "," : "") $11
    if ($4) { linked[key] = 1 }
    if ($3) {
        public_count++
        if ($8 == 0) wrong(place[key] ": the public function " key " has no `ensures`")
        if ($9 > 0) wrong(place[key] ": the public function " key " has a `requires`")
        if (results[key] == "") wrong(place[key] ": the public function " key " returns nothing and is lent nothing to write")
    }
    next
}
stage == "theorems" {
    key = $1 "::" $4
    if (!(key in is_public)) { wrong($2 ": the theorem " $3 " is of a function " $4 ", and its crate has none of that name"); next }
    if ($5 == "other") { wrong($2 ": the theorem " $3 " on " key " is neither OneResult nor OneExit of a lent buffer"); next }
    if ((key, $5) in theorem) wrong($2 ": the theorem " $3 " says of " key " what " theorem[key, $5] " says")
    theorem[key, $5] = $3
    theorems[key] = theorems[key] (theorems[key] == "" ? "" : ", ") "`" $3 "`"
    theorem_count++
    next
}
stage == "answers" {
    at = edit_file($1, $2)
    key = $1 "::" $4
    group_count += !(($1, $2) in group)
    group[$1, $2] = 1
    answer_count++
    if ($3 == "?") { wrong(at ": a pair before the first `wrong:`"); next }
    if ($4 == "" || $5 == "" || $6 == "") { wrong(at ": " $3 " lacks its `in:`, its `says:` or its pair"); next }
    if (($1 "/" $3) in answer) wrong(at ": " $3 " stands in " edit_file($1, answer[$1 "/" $3]) " too")
    answer[$1 "/" $3] = $2
    if ($7 != "" && ($1, $2, $4, $7) in fact)
        wrong(at ": " $3 " and " fact[$1, $2, $4, $7] " are both in " $4 " and name one fact, which could not tell which of them is refused")
    if ($7 != "") fact[$1, $2, $4, $7] = $3
    sharing[$1, $2, $4]++
    wants[++want_count] = $1 "\t" $2 "\t" $4 "\t" $3 "\t" $7
    count = split($6, pairs, " ")
    for (k = 1; k <= count; k++) {
        split(pairs[k], spot, ":")
        if (spot[2] == 0) { wrong(at ": " $3 ": an `old:` text does not stand once in " spot[1]); continue }
        if ($4 ~ /^law /) { if (spot[1] !~ /^specs\//) wrong(at ": " $3 " is refused by a law, and changes " spot[1]); continue }
        if (!(key in is_public)) { wrong(at ": " $3 ": there is no function " key); break }
        if (spot[1] != source[key] || spot[2] < first[key] || spot[2] > last[key]) wrong(at ": " $3 " changes " spot[1] ":" spot[2] ", which is not in " key)
    }
    own[key]++
    text = "`" $3 "` (" $2 "): " $5
    answers[key] = answers[key] (answers[key] == "" ? "" : "; ") text
    if ($4 ~ /^law /) { if (!(key in law)) laws[$1] = laws[$1] (laws[$1] == "" ? "" : "\t") key; law[key] = substr($4, 5) }
    next
}
stage == "refused" {
    key = $1 "\t" $2 "\t" $3
    if ($4 == "?") { unfit[key] = 1; next }
    refused[key "\t"] = 1
    if ((key "\t" $4) in refused || $4 == "") next
    refused[key "\t" $4] = 1
    refused_facts[key] = refused_facts[key] (refused_facts[key] == "" ? "" : ", ") "`" $4 "`"
    next
}

stage == "page" {
    page_line[++page_count] = $0
    if ($0 == start) list_start = page_count
    if ($0 == end) list_end = page_count
    if ($0 ~ /^## /) calls_part = $0 == "## What a user calls"
    if (calls_part && $0 ~ /^- /) {
        count = quoted($0, names)
        for (k = 1; k <= count; k++) {
            if (!(names[k] in is_public)) wrong(page ": there is no function " names[k])
            called[names[k]] = 1
        }
    }
    next
}
# a page names a wrong answer as `crate/name`
stage == "pages" {
    count = quoted($0, names)
    for (k = 1; k <= count; k++) {
        slash = index(names[k], "/")
        if (!slash || names[k] ~ /[^a-z0-9_\/]/ || !(substr(names[k], 1, slash - 1) in is_crate)) continue
        if (substr(names[k], slash + 1) ~ /\//) continue
        if (!(names[k] in answer)) wrong(FILENAME ":" FNR ": there is no wrong answer " names[k])
    }
    next
}

END {
    for (i = 1; i <= function_count; i++) {
        key = functions[i]
        if (!is_public[key]) continue
        count = split(results[key], result, ",")
        for (k = 1; k <= count; k++) if (!((key, result[k]) in theorem)) {
            wrong(place[key] ": " key " has no theorem that two " (result[k] == "result" ? "results" : "exits of the buffer at place " result[k] " of its parameters") " are equal")
        }
        if ((key in linked) && !(key in called)) wrong(page ": C links " key ", and it is not among what a user calls")
        least = key in called ? 2 : 1
        if (own[key] < least) wrong(place[key] ": " key " has " own[key] + 0 " wrong answers in its own body, and should have " least)
    }
    for (key in theorem) {
        split(key, part, SUBSEP)
        if (("," results[part[1]] ",") !~ ("," part[2] ",")) wrong("the theorem " theorem[key] " is of something that " part[1] " neither returns nor is lent to write")
    }
    if (mode == "--logs") for (i = 1; i <= want_count; i++) {
        split(wants[i], want, "\t")
        if (only !~ /^ *$/ && !index(only, " " want[1] " ")) continue
        key = want[1] "\t" want[2] "\t" want[3]
        file = want[2]
        # what is refused at a function with several tells of one of them only where that names its fact; else it was tried alone
        if (sharing[want[1], want[2], want[3]] > 1) {
            if (want[5] != "" && (key "\t" want[5]) in refused) continue
            key = want[1] "\t" want[2] " " want[4] "\t" want[3]
            file = want[2] "." want[4]
        }
        if ((key "\t" want[5]) in refused) continue
        wrong(edit_file(want[1], want[2]) ": " want[4] " is not refused at " want[3] " itself, by " (want[5] == "" ? "a fact of its own" : "its `" want[5] "`") \
            (refused_facts[key] != "" ? ", but by " refused_facts[key] : "") (key in unfit ? "; there the proof is unfit for the code" : "") \
            " (target/tightness/" want[1] "/" file ".log)")
    }
    make_list()
    if (!list_start || list_end < list_start) wrong(page ": it lacks the lines '" start "' and '" end "'")
    else if (mode == "--write") write_page()
    else {
        same = list_end - list_start - 1 == list_count
        for (i = 1; same && i <= list_count; i++) same = page_line[list_start + i] == list_line[i]
        if (!same) wrong(page ": its list is not that of the crates (`scripts/tightness --write` writes it)")
    }
    if (bad) exit 1
    printf "tightness: %d public functions with %d theorems, %d wrong answers in %d groups%s\n", public_count, theorem_count, answer_count, group_count, mode != "--logs" ? "" : only ~ /^ *$/ ? ", each refused at its own function" : ", those of" only "refused at their own functions"
}
# a section for each crate that has functions or wrong answers, in the order of crates.txt
function make_list(    c, i, k, key, rows, count, part) {
    for (c = 1; c <= crate_count; c++) {
        rows = 0
        for (i = 1; i <= function_count; i++) {
            key = functions[i]
            if (crate_of[key] != crates[c] || (!is_public[key] && !(key in answers))) continue
            if (!rows++) head(crates[c])
            list("| `" name_of[key] "` | " (is_public[key] ? theorems[key] : "private") " | " answers[key] " |")
        }
        count = split(laws[crates[c]], part, "\t")
        for (k = 1; k <= count; k++) {
            if (!rows++) head(crates[c])
            list("| law `" law[part[k]] "` | | " answers[part[k]] " |")
        }
    }
    list("")
}
function head(crate) {
    list("")
    list("## `" crate "`")
    list("")
    list("| Function | Theorems | Wrong answers |")
    list("|---|---|---|")
}
function write_page(    i) {
    for (i = 1; i <= list_start; i++) print page_line[i] >(temp "/page")
    for (i = 1; i <= list_count; i++) print list_line[i] >(temp "/page")
    for (i = list_end; i <= page_count; i++) print page_line[i] >(temp "/page")
    close(temp "/page")
}
