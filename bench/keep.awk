# From bench/landings.txt and lines of a row and its count: that file with these counts in the landing's column, "-" where there is none.
# The rows come in the order of the counts, and behind them those that are no longer counted.
function print_row(row, first) {
    printf "%-20s", first
    for (place = 1; place <= landings; place++)
        printf " %12s", row == "" ? named[place] : (row, named[place]) in kept ? kept[row, named[place]] : "-"
    print ""
}

FNR == NR && FNR == 1 {
    for (landings = 0; landings < NF - 1; landings++)
        named[landings + 1] = $(landings + 2)
    next
}

FNR == NR {
    for (place = 1; place <= landings; place++)
        if (named[place] != landing)
            kept[$1, named[place]] = $(place + 1)
    older[++olders] = $1
    next
}

{
    kept[$1, landing] = $2
    counted[++counts] = $1
    is_counted[$1] = 1
}

END {
    # the landing's place among the others, by its number
    for (place = landings; place > 0 && named[place] + 0 > landing + 0; place--)
        ;
    if (place == 0 || named[place] != landing) {
        for (other = ++landings; other > place + 1; other--)
            named[other] = named[other - 1]
        named[place + 1] = landing
    }
    print_row("", "row")
    for (number = 1; number <= counts; number++)
        print_row(counted[number], counted[number])
    for (number = 1; number <= olders; number++)
        if (!(older[number] in is_counted))
            print_row(older[number], older[number])
}
