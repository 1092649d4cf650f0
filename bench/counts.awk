# A row of the table of instructions, from callgrind's output: what the functions count_ENGINE_PART took with all that
# they call. `counts` holds the numbers of deliveries and turns.
function row(    e, d, t, w, text, k) {
    split("archive masks reference", names, " ")
    split(counts, of, " ")
    for (k = 1; k <= 3; k++) {
        e = "count_" names[k]
        d = d sprintf(" %.0f |", (cost[e "_deliveries"] - cost[e "_opening"]) / of[1])
        t = t sprintf(" %.0f |", (cost[e "_whole"] - cost[e "_deliveries"]) / of[2])
        w = w sprintf(" %.0f |", cost[e "_whole"])
    }
    text = "| " version " | " n " | " (heaviest == 1 ? "1" : "1 to " heaviest) " | " kind " |" d t w
    printf "%s %.2f | %.3f |\n", text, cost["count_archive_whole"] / cost["count_masks_whole"], \
        cost["count_archive_whole"] / cost["count_reference_whole"]
}

# A name stands with its number where it is first used.
/^c?fn=/ {
    match($0, /\([0-9]+\)/)
    number = substr($0, RSTART, RLENGTH)
    if (length($0) > RSTART + RLENGTH)
        name[number] = substr($0, RSTART + RLENGTH + 1)
    if ($0 ~ /^cfn=/)
        called = name[number]
    next
}
/^calls=/ { expected = 1; next }
expected { expected = 0; if (called ~ /^count_/) cost[called] += $NF }
END { row() }
