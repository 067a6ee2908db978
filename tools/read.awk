# Reads a file with one waveform; goes with waveform.awk, and before a drawing, which is done in END. A line that ends
# in a rule in backquotes gives the rule, as on the page of rules; a line that begins with # is a remark; each other
# line is a row. A fault is told with its line on standard error, with exit status 2. `name` is the file's name for it.
# Where `card` is given, the waveform's card is written there.

function fault(line, what) {
    gsub(/[^ -~]/, "?", what)
    print name ":" line ": " what | "cat 1>&2"
    close("cat 1>&2")
    failed = 1
    exit 2
}

BEGIN { wave_forget() }

/^[ \t\r]*$/ || /^#/ { next }

{ said = /`[^`]*`$/ ? wave_take_caption($0) : wave_row($0) }

said != "" { fault(FNR, said) }

END {
    if (failed) exit 2
    said = wave_whole()
    if (said != "") fault(FNR, said)
    if (card != "") wave_card(card)
}
