# From bench/landings.txt and then a line for each row, of what, instructions and nanoseconds, library and second each, and a name: the
# table. A landing without the row shows "-".
function grouped(number) {
    if (number !~ /^[0-9]+$/)
        return "-"
    if (number < 1000)
        return number
    return grouped(int(number / 1000)) sprintf(",%03d", number % 1000)
}

function time(nanoseconds) {
    if (nanoseconds < 1000)
        return nanoseconds " ns"
    if (nanoseconds < 1000000)
        return sprintf("%.1f µs", nanoseconds / 1000)
    return sprintf("%.1f ms", nanoseconds / 1000000)
}

# since a landing
function change(now, landing, place) {
    if (landing !~ /^[0-9]+$/)
        return "-"
    if (now == landing)
        return "0"
    if (now <= 1.01 * landing)
        return sprintf("%+.2f %%", 100 * (now - landing) / landing)
    slower[place]++
    return sprintf("%+.2f %% slower", 100 * (now - landing) / landing)
}

FNR == NR && FNR == 1 {
    for (landings = 0; landings < 2 && NF - landings > 1; landings++)
        named[landings] = $(NF - landings)
    head = "| operation | now |"
    line = "|---|---:|"
    for (place = 0; place < landings; place++) {
        head = head " landing " named[place] " | change |"
        line = line "---:|---:|"
    }
    print head " second | now : second |" (timed ? " library, time | second, time |" : "")
    print line "---:|---:|" (timed ? "---:|---:|" : "")
    next
}

FNR == NR {
    for (place = 0; place < landings; place++)
        kept[$1, place] = $(NF - place)
    next
}

{
    name = $0
    sub(/^[^ ]+ [^ ]+ [^ ]+ [^ ]+ [^ ]+ /, "", name)
    row = "| " name " | " grouped($2) " |"
    for (place = 0; place < landings; place++)
        row = row " " grouped(kept[$1, place]) " | " change($2, kept[$1, place], place) " |"
    row = row sprintf(" %s | %.2f |", grouped($3), $2 / $3)
    print row (timed ? " " time($4) " | " time($5) " |" : "")
    fflush()
    rows++
}

END {
    print ""
    printf "Slower by more than 1 percent, of %d rows:", rows
    for (place = 0; place < landings; place++)
        printf "%s %d than in landing %s", place ? "," : "", slower[place], named[place]
    print ""
}
