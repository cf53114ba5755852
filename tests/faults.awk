# awk -v fault=NAME -v nth=N -f faults.awk TABLE: a region table with a fault put in on purpose, at the N-th place that it has for it, for recorded runs
# to find. Status 1 where there is no such place.
#   barrier    plain code outside constructs is a barrier
#   single     a single is a masked of thread 0
#   loop       a do is a single
#   critical   a critical is a single
#   masked     a masked is that of another thread
#   edge       a node has one way less
BEGIN { FS = OFS = "," }
{ row[NR] = $0 }
END {
    for (i = 2; i <= NR && !planted; i++) {
        split(row[i], cell, ",")
        if (fault == "barrier" && i > 2 && i < NR && cell[2] == "plain" && cell[4] == "") plant(i, 2, "barrier")
        if (fault == "single" && cell[2] == "single") plant(i, 2, "master")
        if (fault == "loop" && cell[2] == "do" && !has_ordered(cell[3])) plant(i, 2, "single")
        if (fault == "critical" && cell[2] ~ /^critical/ && cell[4] == "") plant(i, 2, "single")
        if (fault == "masked" && cell[2] ~ /^masked|^master/) plant(i, 2, "masked " (cell[2] ~ / 1$/ ? 2 : 1))
        if (fault == "edge" && split(cell[5], next_of, " ") > 1) plant(i, 5, next_of[1])
    }
    if (!planted) exit 1
    for (i = 1; i <= NR; i++) print row[i]
}
function plant(number, column, text,    parts, i, n) {
    if (++places < nth) return
    n = split(row[number], parts, ",")
    parts[column] = text
    row[number] = parts[1]
    for (i = 2; i <= n; i++) row[number] = row[number] "," parts[i]
    planted = 1
}
function has_ordered(construct,    i, cells) {
    for (i = 2; i <= NR; i++) {
        split(row[i], cells, ",")
        if (cells[2] == "ordered" && cells[4] == construct) return 1
    }
    return 0
}
