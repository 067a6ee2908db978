# Reads the table of a page of rules that says how many memories each part of a rule has, for examples/costs. `work` is
# the folder for what it writes, the rules and the lines to be printed for them; `name` is the page's name in a fault.
#
# The table is the one whose first two headings are `part` and `memories`. Each row has four cells: the part, whose first
# word in backquotes is what is looked for in rules; its memories; a rule with it, in backquotes; how many memories that
# rule's table has. A rule may have more parts than its row's. A row of another form, a part that has no row or is not in
# its rule, and a number that is not the sum of the parts and one more, are faults: told with their line, exit status 1.

function fault(line, what) {
    print name ":" line ": " what
    failed = 1
    exit 1
}

# a cell without the blanks around it
function plain(cell) {
    gsub(/^ +| +$/, "", cell)
    return cell
}

function is_number(cell) {
    return cell ~ /^(0|[1-9][0-9]*)$/
}

# what the parts of row i's rule have, and one more: its words and operators, in square brackets none
function costs(i,   rule, sum, word, own) {
    rule = rules[i]
    gsub(/\[[^]]*\]/, "", rule)
    sum = 1
    while (match(rule, /[a-z]+|[!&|]/)) {
        word = substr(rule, RSTART, RLENGTH)
        rule = substr(rule, RSTART + RLENGTH)
        if (word == "k") continue
        if (!(word in cost)) fault(at[i], "no row for `" word "`")
        if (word == part[i]) own = 1
        sum += cost[word]
    }
    if (!own) fault(at[i], "a rule without its row's part")
    return sum
}

/^\| *part *\| *memories *\|/ { inside = FNR }

!/^\|/ { inside = 0 }

# the rows after the heading and the line below it
inside && FNR > inside + 1 {
    gsub(/\\\|/, "\001")
    if (split($0, cell, "|") != 6) fault(FNR, "a row that has not four cells")
    for (i = 2; i <= 5; i++) {
        cell[i] = plain(cell[i])
        gsub("\001", "|", cell[i])
    }
    if (!match(cell[2], /`([a-z]+|[!&|])/)) fault(FNR, "a part that is no word and no operator")
    part[++rows] = substr(cell[2], RSTART + 1, RLENGTH - 1)
    if (part[rows] in cost || !is_number(cell[3])) fault(FNR, "a part that is there twice, or without its memories")
    cost[part[rows]] = cell[3]
    if (cell[4] !~ /^`[^`]+`$/ || !is_number(cell[5])) fault(FNR, "no rule, or no number for it")
    rules[rows] = substr(cell[4], 2, length(cell[4]) - 2)
    total[rows] = cell[5]
    at[rows] = FNR
}

END {
    if (failed) exit 1
    if (rows < 13) fault(FNR, "fewer parts than a rule can have")
    for (i = 1; i <= rows; i++) {
        if (costs(i) != total[i]) fault(at[i], "the parts of the rule have " costs(i))
        print rules[i] > (work "/rules")
        print total[i], rules[i] > (work "/wanted")
    }
}
