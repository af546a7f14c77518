# SPDX-License-Identifier: MIT OR Apache-2.0
# Inputs that are not nine lines of sixteen hex digits: for tests/forecast/run, which says `misshapen NAME` with each on standard input. A good
# input is made worse in one way at a time, so that no other fault hides it.
zero=0000000000000000
good='0000000000000000 40ac200000000000 404e000000000000 40bb580000000000 0000000000000000 0000000000000000 0000000000000000 401e2f1a9fbe76c9 0000000000000000'

nine() { printf '%s\n' $good; }
# N WORD: line N is the word, which may hold printf's own escapes.
with_line() { nine | awk -v n="$1" -v word="$2" 'NR == n { printf "%s\n", word; next } { print }'; }

try_counts() {
    printf '' | misshapen 'nothing at all'
    printf '\n' | misshapen 'one newline'
    for n in 1 2 3 4 5 6 7 8; do nine | head -n "$n" | misshapen "$n lines"; done
    { nine; echo $zero; } | misshapen 'ten lines'
    { nine; printf %s $zero; } | misshapen 'ten lines, the last without newline'
    { nine; echo; } | misshapen 'an empty line after the ninth'
    { nine; printf ' '; } | misshapen 'a blank after the ninth line'
    { nine; printf '\r'; } | misshapen 'a carriage return after the ninth line'
    { nine; printf '\0'; } | misshapen 'a zero byte after the ninth line'
    { nine; nine; } | misshapen 'nine lines twice'
    { echo; nine; } | misshapen 'an empty line before the first'
    { nine | head -n 4; echo; nine | tail -n 5; } | misshapen 'an empty line among them'
    nine | tr '\n' ' ' | misshapen 'nine words on one line'
    nine | tr -d '\n' | misshapen 'no newline at all'
    nine | sed 's/$/\r/' | misshapen 'carriage returns'
    nine | tr '\n' '\r' | misshapen 'carriage returns for newlines'
    yes $zero | head -n 100000 | misshapen 'a hundred thousand lines'
    head -c 300000 /dev/zero | tr '\0' 0 | misshapen 'one line of 300,000 digits'
}

# Of the first line, one in the middle and the last.
try_words() {
    for n in 1 5 9; do
        for word in '' 0 000000000000000 00000000000000000 ' 000000000000000' '000000000000000 ' ' 0000000000000000' '0000000000000000 ' \
            000000000000000g 000000000000000G g000000000000000 000000000000000/ 000000000000000: '000000000000000@' '000000000000000`' \
            0x00000000000000 -000000000000000 +000000000000000 0000_00000000000 00000000.0000000 '00000000	0000000' '000000000000000é' \
            60 7000.0 nan inf; do
            with_line $n "$word" | misshapen "line $n is '$word'"
        done
        with_line $n $zero | sed "${n}s/\$/\r/" | misshapen "a carriage return in line $n"
        with_line $n 00000000x0000000 | tr x '\0' | misshapen "a zero byte in line $n"
        with_line $n 00000000x0000000 | tr x '\377' | misshapen "byte 255 in line $n"
        with_line $n 00000000x0000000 | tr x '\n' | misshapen "a newline in line $n"
    done
    nine | head -c 151 | misshapen 'the last digit missing'
    printf '\357\273\277' | cat - /dev/null >"$out/mark"
    nine | cat "$out/mark" - | misshapen 'a byte order mark before the first line'
}

# What is well shaped and looks odd: capitals, no newline at the end. Held to the oracle, not to 19.
try_shaped() {
    nine | shaped 'the good input'
    nine | tr a-f A-F | shaped 'capitals'
    nine | sed 'y/abc/ABC/' | shaped 'capitals among small letters'
    nine | head -c 152 | shaped 'no newline after the ninth line'
    nine | head -c 152 | tr a-f A-F | shaped 'capitals, and no newline after the ninth line'
}
