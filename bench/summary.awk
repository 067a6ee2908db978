# Lines `state round name number`, with tabs: a row for each name with the median (the least to the most) of the rounds,
# a column for each state. Below C's times stands the ratio to them, round by round.
BEGIN { FS = "\t" }

{
    key = $1 SUBSEP $2 SUBSEP $3
    number[key] = $4
    rounds[$2]
    if (!($3 in seen)) { seen[$3]; order[++count] = $3 }
}

END {
    columns = split(states, state, " ")
    printf "%-58s", "median (least to most) of the rounds"
    for (i = 1; i <= columns; i++) printf "%28s", state[i]
    print ""
    for (j = 1; j <= count; j++) {
        row(order[j])
        ours = order[j]
        if (ours !~ /, KB$/ && sub(/, C(, | with no check, )/, ", ", ours) && ours in seen) ratios(ours, order[j])
    }
}

function row(name,   i) {
    printf "%-58s", name
    for (i = 1; i <= columns; i++) printf "%28s", summary(state[i], name)
    print ""
}

function ratios(ours, other,   i, r) {
    for (i = 1; i <= columns; i++)
        for (r in rounds) {
            delete number[state[i], r, "    ratio"]
            if ((state[i], r, ours) in number)
                number[state[i], r, "    ratio"] = number[state[i], r, ours] / number[state[i], r, other]
        }
    row("    ratio")
}

function summary(s, name,   r, n, a, i, j, t) {
    n = 0
    for (r in rounds) if ((s, r, name) in number) a[++n] = number[s, r, name]
    if (n == 0) return "-"
    for (i = 2; i <= n; i++)
        for (j = i; j > 1 && a[j] < a[j - 1]; j--) { t = a[j]; a[j] = a[j - 1]; a[j - 1] = t }
    t = n % 2 ? a[(n + 1) / 2] : (a[n / 2] + a[n / 2 + 1]) / 2
    return text(t) " (" text(a[1]) " to " text(a[n]) ")"
}

function text(x) { return x < 1000 ? sprintf("%.3g", x) : sprintf("%.0f", x) }
