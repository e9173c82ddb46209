# The functions of a file of Rattle, in the layout of `rt fmt`. A line for each: the crate; its name, with its module
# before it, and the name that the prover gives the `impl` in which it stands (`impl From<Kind> for u8` is `U8FromKind`);
# whether it is public; whether C links it; the file, its first and its last line; how many `ensures` and
# `requires` it has, where a starred clause counts as a `requires` alone; whether it returns something; and the places among
# its parameters, from 0 on, of those that it is lent to write.
BEGIN {
    OFS = "\t"
    split(file, folder, "/")
    crate = folder[2]
    module = file
    sub(/^crates\/[^\/]*\/src\//, "", module)
    sub(/\.rt$/, "", module)
    gsub(/\//, "::", module)
    module = module == "lib" || module == "main" ? "" : module "::"
}
{ sub(/\/\/.*/, "") }
/^impl[ <]/ { block = block_of($0) }
/^}/ { block = "" }
/^ *(pub(\([a-z]+\))? +)?(const +)?(unsafe +)?(extern +"C" +)?fn +[a-z]/ {
    indent = match($0, /[^ ]/) - 1
    is_public = $0 ~ /^ *pub +[a-z]/
    linked = $0 ~ /extern +"C"/
    name = $0
    sub(/^.*fn +/, "", name)
    sub(/[^A-Za-z0-9_].*/, "", name)
    name = block name
    first = FNR
    ensures = 0
    requires = 0
    signature = ""
    in_signature = 1
}
name == "" { next }
/^ *ensures\*[ {]/ { in_signature = 0; next }
/^ *ensures[ {]/ { ensures++; in_signature = 0; next }
/^ *requires\*?[ {]/ { requires++; in_signature = 0; next }
in_signature {
    signature = signature " " $0
    if ($0 ~ /\{ *\}? *$/) in_signature = 0
}
/\} *$/ && match($0, /[^ ]/) - 1 == indent { print_function() }

function block_of(line,    trait) {
    sub(/^impl(<[^>]*>)? */, "", line)
    sub(/ *\{.*/, "", line)
    trait = ""
    if (line ~ / for /) {
        trait = line
        sub(/ for .*/, "", trait)
        sub(/^.* for /, "", line)
    }
    return camel(line) camel(trait) "::"
}

function camel(text,    count, part, k, joined) {
    count = split(text, part, /[^A-Za-z0-9_]+/)
    for (k = 1; k <= count; k++) joined = joined toupper(substr(part[k], 1, 1)) substr(part[k], 2)
    return joined
}

function print_function(    rest, parameters, depth, i, c, place, writes) {
    gsub(/->/, "\001", signature)
    # behind its name, and what it is generic in
    match(signature, /fn +[A-Za-z0-9_]+/)
    rest = substr(signature, RSTART + RLENGTH)
    depth = 0
    for (i = 1; i <= length(rest); i++) {
        c = substr(rest, i, 1)
        if (c == "<") depth++
        if (c == ">") depth--
        if (c == "(" && depth == 0) break
    }
    rest = substr(rest, i + 1)
    parameters = ""
    place = 0
    writes = ""
    depth = 1
    for (i = 1; depth > 0 && i <= length(rest); i++) {
        c = substr(rest, i, 1)
        if (index("([<", c)) depth++
        if (index(")]>", c)) depth--
        if (depth > 0 && !(c == "," && depth == 1)) { parameters = parameters c; continue }
        if (parameters ~ /: *&('[a-z]+ +)?mut |^ *&('[a-z]+ +)?mut +self *$/) writes = writes (writes == "" ? "" : ",") place
        place++
        parameters = ""
    }
    rest = substr(rest, i)
    print crate, module name, is_public, linked, file, first, FNR, ensures, requires, rest ~ /\001/ ? 1 : 0, writes
    name = ""
}
