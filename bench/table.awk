# Turns what bench/run prints into the table of docs/PERFORMANCE.md:
#
#   bench/run >figures.txt && awk -f bench/table.awk figures.txt
#
# The library's time is given for each bridge; what stands beside it is given for the last one.
function grouped(number) {
    return number < 1000 ? number : int(number / 1000) "," sprintf("%03d", number % 1000)
}

/^[0-9]+ ports, / { bridge = ++bridges; titles = titles " " $0 " |" }

/^nanoseconds of a request/ { bridge = 0 }

bridge && /^  (get|get-next|set) [0-9]+: / {
    title = $0
    sub(/^ */, "", title)
    sub(/   *[0-9].*/, "", title)
    if (!(title in lines)) { order[++count] = title }
    lines[title] = lines[title] " " grouped($(NF - 4)) " |"
    beside[title] = " " $(NF - 1) " | " $NF " | " grouped($(NF - 3)) " | " grouped($(NF - 2)) " |"
}

END {
    print "| Nanoseconds per call |" titles " : memcmp | : snmpd | model | model+block |"
    printf "|---"
    for (i = 0; i < bridges + 4; i++) printf "|--:"
    print "|"
    for (i = 1; i <= count; i++) print "| " order[i] " |" lines[order[i]] beside[order[i]]
}
