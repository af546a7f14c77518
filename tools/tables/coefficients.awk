# SPDX-License-Identifier: MIT OR Apache-2.0
# awk -f tools/tables/coefficients.awk crates/tables/src/?_rows.rt: the coefficients of both tables out of the library's own source, in the order of the module's
# text, B before A. A line is TABLE ROW COLUMN KIND DECIMAL; KIND is stored, or mirror where the decimal stands in another row. A line of the source that is
# not understood ends it with 1.
function fail(what) { print FILENAME ": line " FNR ": " what >"/dev/stderr"; failed = 1; exit 1 }

# An entry is a decimal, or names one that stands above it, in B's diagonal or in the mirror's row.
function decimal_of(entry,   minus, name, at) {
    kind = "stored"
    if (entry ~ /^-?[0-9](\.[0-9]+)?(e[-+]?[0-9]+)?$/) return entry
    if (entry !~ /^-?[A-Z0-9]+\[[0-8]\]$/) fail("not understood: " entry)
    minus = sub(/^-/, "", entry)
    name = at = entry
    sub(/\[.*/, "", name)
    gsub(/.*\[|\]/, "", at)
    if (!((name, at) in decimal)) fail("no such entry above: " entry)
    if (name != "DIAGONAL") kind = "mirror"
    entry = decimal[name, at]
    if (minus && !sub(/^-/, "", entry)) entry = "-" entry
    return entry
}

/^(pub )?const [A-Z0-9]+: \[f64; 9\] = \[$/ { array = $0; gsub(/.*const |:.*/, "", array); column = 0; next }
array == "" && /^(\/\/.*)?$/ { next }
array == "" { fail("not understood") }
/^];$/ { if (column != 9) fail(array " has " column " entries"); array = ""; next }
{
    rest = $0
    gsub(/^ +|,$/, "", rest)
    entries = split(rest, row, /, /)
    for (j = 1; j <= entries; j++) { decimal[array, column] = decimal_of(row[j]); kinds[array, column++] = kind }
}
END {
    if (failed) exit 1
    for (t = 1; t <= 2; t++)
        for (i = 0; i < 10; i++)
            for (k = 0; k < 9; k++) {
                table = substr("BA", t, 1)
                if (!((table i, k) in decimal)) { print "no " table "[" i "][" k "] in the source" >"/dev/stderr"; exit 1 }
                print table, i, k, kinds[table i, k], decimal[table i, k]
            }
}
