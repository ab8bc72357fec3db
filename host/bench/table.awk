# The benchmark's table in Markdown, of lines with the cost, the limit, the aim, the peer's cost and the words of a scenario. The first is the
# floor and the second the redraw. Below it stand the scenarios that are over their limits.
function commas(number) {
    number = sprintf("%d", number)
    while (match(number, /[0-9][0-9][0-9][0-9](,|$)/))
        number = substr(number, 1, RSTART) "," substr(number, RSTART + 1)
    return number
}

function bound(number) {
    return number == 0 ? "" : commas(number)
}

function put(words, cost, ratio, limit, aim, peer) {
    printf "| %-50s | %12s | %18s | %9s | %9s | %9s |\n", words, cost, ratio, limit, aim, peer
}

function head() {
    put("Scenario", "Instructions", "Ratio to the floor", "Limit", "Aim", "Peer")
    print "|---|---:|---:|---:|---:|---:|"
}

by != "time" && NR == 1 { floor = $1; head() }
by != "time" && NR == 2 { redraw = $1 }
by != "time" {
    times = $2
    limit = sub(/\*redraw$/, "", times) ? times * redraw : $2
    put($5, commas($1), sprintf("%.2f", $1 / floor), bound(limit), bound($3), bound($4))
    if (limit != 0 && $1 > limit)
        over = over (over == "" ? "" : "; ") $5
}
END {
    if (by != "time")
        print over == "" ? "Every line is within its limit." : "Over its limit: " over "."
}

# Limits and aims are numbers of instructions, so they say nothing of times.
by == "time" && NR == 1 {
    printf "| %-50s | %26s |\n", "Scenario", "Time, ratio to the floor"
    print "|---|---:|"
}
by == "time" { printf "| %-50s | %26.2f |\n", $5, $1 }
