# Splits a rule text into words, from `od -An -v -tu1` of its bytes, and prints a line for each word: the byte at which
# it begins (from 0), its length, the brackets still open after it as the words that close them (innermost first, `-`
# for none), and the byte at which the part begins in which it stands: after the bracket around it, or after the `then`
# or `chop` before it. A byte that no word has is a word of its own. Only places are found here: what is a rule, the
# program says.

function letter(b) { return b >= 97 && b <= 122 || b >= 48 && b <= 57 }

# the length of the word at byte i
function word_length(i,   j) {
    if (letter(byte[i])) {
        for (j = i; j < count && letter(byte[j]); j++);
        return j - i
    }
    return ((byte[i] == 60 || byte[i] == 62) && byte[i + 1] == 61) ? 2 : 1
}

function is_word(i, length_, text,   j) {
    if (length_ != length(text)) return 0
    for (j = 0; j < length_; j++) if (byte[i + j] != code[substr(text, j + 1, 1)]) return 0
    return 1
}

{ for (f = 1; f <= NF; f++) byte[count++] = $f }

# takes the word of n bytes at byte i: the brackets, and where parts begin (-1: at the next word)
function take_word(i, n) {
    if (left[depth] < 0) left[depth] = i
    part = left[depth]
    if (byte[i] == 40 || byte[i] == 91) {
        closers = (byte[i] == 40 ? ")" : "]") closers
        left[++depth] = -1
    } else if ((byte[i] == 41 || byte[i] == 93) && depth > 0) {
        closers = substr(closers, 2)
        depth--
    } else if (is_word(i, n, "then") || is_word(i, n, "chop")) {
        left[depth] = -1
    }
    print i, n, (closers == "" ? "-" : closers), part
}

END {
    for (i = 32; i < 127; i++) code[sprintf("%c", i)] = i
    depth = 0
    left[depth] = -1
    for (i = 0; i < count; i += n) {
        n = byte[i] == 32 ? 1 : word_length(i)
        if (byte[i] != 32) take_word(i, n)
    }
}
