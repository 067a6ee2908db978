# Prints a card that the program took as a waveform: the signals that the rule names or that are on at some tick, and in
# edition 2 likewise the velocity.

FNR == 1 { edition = substr($0, 9) }
FNR == 2 { settings = split(substr($0, 3), setting, ",") }
FNR == 3 {
    rule = substr($0, 7)
    rest = rule
    while (match(rest, /[a-z0-9]+/)) {
        name = substr(rest, RSTART, RLENGTH)
        if (name ~ /^([sk][0-9]+|v)$/) shown[name] = 1
        rest = substr(rest, RSTART + RLENGTH)
    }
}
FNR > 4 {
    start[FNR - 4] = substr($0, 3, 1)
    velocity[FNR - 4] = substr($0, 22)
    if (edition == 2 && velocity[FNR - 4] != "0") shown["v"] = 1
    for (d = 0; d < 16; d++) {
        value = index("0123456789abcdef", substr($0, 20 - d, 1)) - 1
        for (j = 4 * d; value > 0; j++) {
            if (value % 2) { on[j, FNR - 4] = 1; shown["s" j] = 1 }
            value = int(value / 2)
        }
    }
}
END {
    print "rule  " rule
    for (i = 1; i <= settings; i++)
        if (setting[i] != "0" || ("k" (i - 1)) in shown) print "k" (i - 1), setting[i]
    printf "start"
    for (i = 1; i <= FNR - 4; i++) printf " %s", start[i]
    print ""
    for (j = 0; j < 64; j++) {
        if (!(("s" j) in shown)) continue
        printf "s%d", j
        for (i = 1; i <= FNR - 4; i++) printf " %d", (j, i) in on
        print ""
    }
    if (edition != 2 || !("v" in shown)) exit
    printf "v"
    for (i = 1; i <= FNR - 4; i++) printf " %s", velocity[i]
    print ""
}
