# What a gate did, by what rt says: crates proved, or kept from an earlier run on the machine, and edits refused, crate by crate.
# rt tells no times; .ci/run tells those of its parts.
/^rt: [a-z0-9_]+ proved$/ { proved++ }
/^rt: [a-z0-9_]+ is kept/ { kept++ }
/^rt: must-fail .*: refused/ { split($3, name, "/"); edits[name[1]]++; tried++ }
END {
    printf "crates: %d proved, %d kept\n", proved, kept
    printf "edits refused in this run: %d\n", tried
    for (c in edits) printf "%6d  %s\n", edits[c], c | "sort -nr"
    close("sort -nr")
}
