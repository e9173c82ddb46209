# Which wrong answers have to be tried alone: those that share their function with another of their group, where what was refused
# in the group does not tell that this one is, by the fact that it names. A line for each: the crate, the group and the name.
BEGIN { FS = "\t" }
stage == "refused" { refused[$1, $2, $3, $4] = 1; next }
{ many[$1, $2, $4]++; line[++count] = $0 }
END {
    for (i = 1; i <= count; i++) {
        split(line[i], part, "\t")
        if (many[part[1], part[2], part[4]] > 1 && (part[7] == "" || !((part[1], part[2], part[4], part[7]) in refused))) print part[1], part[2], part[3]
    }
}
