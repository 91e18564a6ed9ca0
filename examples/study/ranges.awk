# Prints what failures cost VC-4 at 90 per cent, of the file table, whose columns are those of rows.sh: awk -f ranges.awk table. A line is for failures of
# some lengths, and for a number of lines. It has the least and the greatest of dark rows, frames lost, frames refused, and greatest delays in ticks.
BEGIN { classes = split("24 100 248 400", most_of); split("28 18 12 26", column) }
$1 == "vc4" && $3 == 90 {
    for (class = 1; $4 > most_of[class]; class++) continue
    for (i = 1; i <= 4; i++) {
        key = class " " $2 " " i; n = $(column[i])
        if (!(key in least) || n < least[key]) least[key] = n
        if (!(key in most) || n > most[key]) most[key] = n
    }
}
END {
    printf "%-9s %-6s %-9s %-10s %-9s %s\n", "length", "lines", "dark", "lost", "refused", "delay"
    for (class = 1; class <= classes; class++)
        for (lines = 1; lines <= 16; lines *= 4) {
            line = sprintf("%-9s %-6s", (class > 1 ? most_of[class - 1] + 2 : 2) "-" most_of[class], lines)
            for (i = 1; i <= 4; i++) {
                key = class " " lines " " i
                line = line sprintf(i == 2 ? " %-10s" : i == 4 ? " %s" : " %-9s", least[key] == most[key] ? most[key] : least[key] "-" most[key])
            }
            print line
        }
}
