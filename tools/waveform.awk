# Reads a waveform, row by row, and writes the card that it becomes: functions only, for tools/wave and examples/rules.
#
# A waveform has one rule and these rows, each a name, blanks, and what belongs to it with blanks between:
#   s0 to s63   one bit a tick; a signal without a row is 0 at each tick
#   v           a number up to 127 a tick, the velocity of its hardest stroke; without this row it is 0 at each tick
#   start       one bit a tick; without this row the first tick is the only start
#   k0 to k7    a number up to 999999; a setting without a row is 0
#   tick        the numbers of the ticks, 0 1 2 and so on, for the eye
#   verdict     what is expected, for each tick 0, 1, or 2 for idle: before the first start
#   rule        the rule's text
# Where there is a row `v`, the card is one of edition 2, else of edition 1. Each function that can fail returns what is
# wrong, or nothing.

# begins a waveform: `wave` has the rows by name (digits without blanks), `wave_name` the names in their order, and
# `wave_velocity` the numbers of the row `v` by tick, counted from 1
function wave_forget() {
    split("", wave)
    split("", wave_name)
    split("", wave_velocity)
    wave_names = 0
    wave_ticks = 0
    wave_rule = ""
    wave_ruled = 0
}

# takes one row, blanks before it or not
function wave_row(line,   name, rest) {
    sub(/^[ \t]+/, "", line)
    name = line
    sub(/[ \t].*$/, "", name)
    rest = substr(line, length(name) + 1)
    sub(/^[ \t]+/, "", rest)
    if (name == "rule") return wave_take_rule(rest)
    if (line ~ /\r$/) return "the line ends in byte 13, a Windows line end: save with line ends of byte 10 alone"
    sub(/[ \t]+$/, "", rest)
    if (name in wave) return "a second row `" name "`"
    if (name ~ /^k[0-9]+$/) return wave_take_setting(name, rest)
    if (name ~ /^s[0-9]+$/ && (name ~ /^s0./ || length(name) > 3 || substr(name, 2) + 0 > 63))
        return "`" name "` is no signal: they are s0 to s63"
    if (name !~ /^s[0-9]+$/ && name != "v" && name != "start" && name != "verdict" && name != "tick")
        return "no row has the name `" substr(name, 1, 40) "`"
    return wave_take_columns(name, rest)
}

function wave_take_rule(text) {
    if (wave_ruled) return "a second rule"
    wave_ruled = 1
    wave_rule = text
    return ""
}

# whether a text is a number up to 999999 with no needless 0
function wave_number(text) {
    return text ~ /^[0-9]+$/ && length(text) <= 6 && (text == "0" || text !~ /^0/)
}

function wave_no_number(text) { return "`" text "` is no number up to 999999 without a needless 0" }

# the same of a velocity
function wave_is_velocity(text) { return wave_number(text) && text + 0 <= 127 }

function wave_no_velocity(text) { return "`" text "` is no velocity: a number up to 127 without a needless 0" }

function wave_take_setting(name, number) {
    if (name !~ /^k[0-7]$/) return "`" name "` is no setting: they are k0 to k7"
    if (!wave_number(number)) return wave_no_number(number)
    wave[name] = number
    wave_name[++wave_names] = name
    return ""
}

# a row of columns: all rows of a waveform have the same number of them
function wave_take_columns(name, rest,   column, count, i, digits) {
    count = split(rest, column, /[ \t]+/)
    digits = ""
    for (i = 1; i <= count; i++) {
        if (name == "tick" && column[i] != i - 1 "") return "`" column[i] "` is not the tick " (i - 1)
        if (name == "verdict" && column[i] !~ /^[012]$/) return "`" column[i] "` in column " i " is none of 0, 1 and 2"
        if (name == "v" && !wave_is_velocity(column[i])) return "in column " i " " wave_no_velocity(column[i])
        if (name ~ /^s/ && column[i] !~ /^[01]$/) return "`" column[i] "` in column " i " is neither 0 nor 1"
        if (name == "v") wave_velocity[i] = column[i]
        else digits = digits (name == "tick" ? "" : column[i])
    }
    if (count == 0) return "the row `" name "` has no column"
    if (wave_ticks > 0 && count != wave_ticks)
        return "the row `" name "` has " count " columns, the rows before it have " wave_ticks
    wave_ticks = count
    wave[name] = digits
    wave_name[++wave_names] = name
    return ""
}

# takes a line that ends in a rule in backquotes
function wave_take_caption(line,   part, count) {
    count = split(line, part, "`")
    return wave_take_rule(part[count - 1])
}

# after the last row: what is missing
function wave_whole() {
    if (!wave_ruled) return "the waveform has no rule"
    if (wave_ticks == 0) return "the waveform has no row with a column for each tick"
    return ""
}

# whether tick i, counted from 1, is a start
function wave_start(i) {
    return ("start" in wave) ? substr(wave["start"], i, 1) + 0 : (i == 1) + 0
}

# the 16 digits of tick i's signals
function wave_digits(i,   d, j, value, digits) {
    digits = ""
    for (d = 0; d < 16; d++) {
        value = 0
        for (j = 4 * d + 3; j >= 4 * d; j--) {
            value *= 2
            if (("s" j) in wave) value += substr(wave["s" j], i, 1)
        }
        digits = substr("0123456789abcdef", value + 1, 1) digits
    }
    return digits
}

# writes the card into a file
function wave_card(file,   i, settings, edition) {
    edition = ("v" in wave) ? 2 : 1
    settings = "k="
    for (i = 0; i < 8; i++) settings = settings (i ? "," : "") ((("k" i) in wave) ? wave["k" i] : "0")
    print "edition=" edition "\n" settings "\nwatch=" wave_rule "\nticks=" wave_ticks > file
    for (i = 1; i <= wave_ticks; i++)
        print "t=" wave_start(i) "," wave_digits(i) (edition == 2 ? "," wave_velocity[i] : "") > file
    close(file)
}
