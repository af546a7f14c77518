# SPDX-License-Identifier: MIT OR Apache-2.0
# For examples/run away: a run goes from program to program by way of a file. $out/away.said has the day without a stop.

# An answer count in each stretch of the run: RK4 on and back, first accelerations, a startup pass, a step.
moments='1 20 35 45 2000'

# FROM TO WORDS: put away by the one program and taken up by the other; the end is that of the day without a stop, and the form is the same,
# whoever wrote it.
pass_on() {
    for answers in $moments; do
        run "$out/$1" put "$answers" $out/away.run >/dev/null
        [ -f "$out/away.run.$answers" ] || cp $out/away.run "$out/away.run.$answers"
        cmp $out/away.run "$out/away.run.$answers" || { echo "$1 writes another form after $answers answers" >&2; exit 1; }
        run "$out/$2" take $out/away.run | cmp - $out/away.said || { echo "$3 after $answers answers: another end" >&2; exit 1; }
    done
    passed="$passed${passed:+, }$3"
}

# PROGRAM: a file cut short or too long is refused, by 10; a day that has ended cannot be put away, by 7, and leaves the file as it was.
refuses() {
    for bytes in 0 2047 2049; do
        { cat $out/away.run; echo; } | head -c $bytes >$out/away.damaged
        refused_by 10 "$1" take $out/away.damaged
    done
    refused_by 7 "$1" put 1000000 $out/away.damaged
    [ "$(wc -c <$out/away.damaged)" = 2049 ] || { echo "$1 writes a file for a run that has ended" >&2; exit 1; }
}

# NUMBER PROGRAM WORDS..
refused_by() {
    number=$1 program=$2
    shift 2
    if ! run "$out/$program" "$@" >/dev/null 2>$out/away.refused && grep -q "refusal $number" $out/away.refused; then return; fi
    echo "$program $*: not refused by $number" >&2
    exit 1
}

pass_around() {
    rm -f $out/away.run*
    passed=
    pass_on away away "C to C"
    refuses away
    if [ -n "$rust" ]; then
        [ -z "$cross" ] || use cross
        build_rust away
        run $out/away-rust | cmp - $out/away.said || { echo "the day in Rust has another end" >&2; exit 1; }
        pass_on away away-rust "C to Rust"
        pass_on away-rust away "Rust to C"
        pass_on away-rust away-rust "Rust to Rust"
        refuses away-rust
    fi
    printf '\nPut away after %s answers and taken up by another program, the same to the last bit: %s.\n' \
        "$(echo $moments | sed 's/ /, /g; s/\(.*\),/\1 or/')" "$passed"
    [ -n "$rust" ] || echo "Not compared: Rust ($rust_packages)."
}
