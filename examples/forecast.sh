# SPDX-License-Identifier: MIT OR Apache-2.0
# For examples/run forecast: the program forecast by way of its Python face, and what that face must hold to. $out is the folder for what is said.

# Of two words after --program the last one counts.
face() { python3 examples/forecast/forecast.py --program "${emulator:+$emulator }$forecast" "$@"; }

fails() { echo "examples/forecast: $*" >&2; exit 1; }

# NUMBER WORD..: refused by that number, in words on standard error, and ended with 1.
face_refuses() {
    number=$1
    shift
    face "$@" >$out/forecast.said 2>$out/forecast.errors && status=0 || status=$?
    [ "$status" = 1 ] && grep -q "^Refused ($number): " $out/forecast.errors || fails "$*: not refused by $number"
}

# STATUS WORD..: ended with that status, and above 0 with one sentence of its own on standard error, none of Python's.
face_ends() {
    wanted=$1
    shift
    face "$@" >$out/forecast.said 2>$out/forecast.errors && status=0 || status=$?
    [ "$status" = "$wanted" ] || fails "$*: ended with $status, not with $wanted"
    [ "$status" = 0 ] || [ "$(grep -c '^forecast.py: ' $out/forecast.errors)" = 1 ] || fails "$*: not one sentence"
    ! grep -q Traceback $out/forecast.errors || fails "$*: Python's own words"
}

# FILTER WORD..: the program's lines go through the filter before the script reads them, which must then end with 3.
face_misses() {
    printf '%s | %s\n' "${emulator:+$emulator }$forecast" "$1" >$out/forecast.cut
    shift
    face_ends 3 --program "sh $out/forecast.cut" "$@"
}

# Only a flight that came to its end ends with 0: the last sample, or the refusal, must be there. Elsewhere it says in a sentence what is missing.
face_notices() {
    day=examples/forecast/low.orbit fall='--tf 3 --h 1e-3 --r 100 0 0 --v 0 0 0'
    for filter in 'head -n 5' 'head -c 900' "sed '\$d'" "tr '\n' ' '" 'sed 2d' 'cat; echo 15'; do face_misses "$filter" $day; done
    for filter in "sed '\$d'" "tr -d '\n'" 'sed 1,4d'; do face_misses "$filter" $fall; done
    for other in true cat yes false ./no-such-program; do face_ends 3 --program "$other" $day; done
    face_ends 2 --program '' $day
    face_ends 2 --program "'" $day
    # The clock passes the end time by rounding, forward and backward; a tail.
    face_ends 0 --tf 1.4 --h 0.1 --r 7000 0 0 --v 0 7.5 0
    face_ends 0 --tf -1.4 --h 0.1 --r 7000 0 0 --v 0 7.5 0
    face_ends 0 --tf 0.8 --h 0.1 --r 7000 0 0 --v 0 7.5 0
}

# The rows' decimals, read back, are the numbers that the program printed, each to the last bit.
rows_are_exact() {
    face --csv examples/forecast/low.orbit >$out/forecast.csv
    face --lines examples/forecast/low.orbit | run $forecast >$out/forecast.lines
    python3 - $out/forecast.csv >$out/forecast.back <<'END'
import struct, sys
for row in list(open(sys.argv[1]))[1:]:
    n, *x = row.split(",")
    print(n, *(struct.pack(">d", float(w)).hex() for w in x[:10]))
END
    cmp $out/forecast.lines $out/forecast.back || fails "the rows are not what the program printed"
    [ "$(wc -l <$out/forecast.csv)" = 1442 ] || fails "a day of minutes has 1442 rows, not $(wc -l <$out/forecast.csv)"
}

fly_forecast() {
    command -v python3 >/dev/null || lacks "python3, in which examples/forecast is written, is not on the path"
    need_forecast
    face examples/forecast/low.orbit
    echo
    face --plot --tf 43200 --r 26600 0 0 --v 0 2.5 1
    rows_are_exact
    face_refuses 1 --tf 100 --r 7000 0 0 --v 0 7.5 0
    face_refuses 12 --tf nan --r 7000 0 0 --v 0 7.5 0
    face_refuses 15 --tf 3 --h 1e-3 --r 100 0 0 --v -0 0 0
    face_refuses 15 --tf -3600 --h -60 --r 0.5 0 0 --v 0 0 -1e-1
    # Outward from 100 km: four steps before the start it was at the centre, and the startup asks there.
    face_refuses 15 --tf 1 --h 0.025 --r 100 0 0 --v 1000 0 0
    [ ! -s $out/forecast.said ] || fails "samples are shown of a start that is refused in the startup"
    face_notices
    [ -z "$emulator" ] || printf "\nOn this processor the script wants these words: --program '%s'" "$emulator $(words_for "$(realpath "$program")")"
    printf '\nRun %s. All 1441 rows are, read back, what the program printed; refusals 1, 12 and 15 come in words, and so does output cut short.\n' "$(where)"
}
