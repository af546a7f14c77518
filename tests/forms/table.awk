# SPDX-License-Identifier: MIT OR Apache-2.0
# A kept form as a row of C: awk -v name=NAME -f tests/forms/table.awk NAME.form. A line that is not understood ends it with 1.
function listed(prefix, tail,   i, all) {
    all = ""
    for (i = 2; i <= NF; i++) all = all prefix $i tail ", "
    return all
}
function wants(count) { if (NF != count + 1) fail(count " values after " $1) }
function fail(what) { print FILENAME ": line " FNR ": " what >"/dev/stderr"; failed = 1; exit 1 }
BEGIN { again = name }
/^#/ { next }
$1 == "point" { wants(3); point = listed("", "u"); next }
$1 == "number" { wants(1); number = $2; next }
$1 == "samples" { wants(1); samples = $2; next }
$1 == "limits" { wants(3); limits = listed("", "u"); next }
$1 == "made" { wants(3); made = listed("", "u"); next }
$1 == "t" { wants(1); t = listed("0x", "u"); next }
$1 == "r" || $1 == "v" { wants(3); place = place listed("0x", "u"); next }
$1 == "again" { wants(1); again = $2; next }
$1 == "bytes" {
    wants(1)
    for (i = 1; i < length($2); i += 2) { bytes = bytes "0x" substr($2, i, 2) ","; count++ }
    next
}
{ fail("not understood") }
END {
    if (failed) exit 1
    if (point == "" || number == "" || samples == "" || limits == "" || made == "" || t == "" || place == "") fail("a part is missing")
    if (count != 2048) fail("there are " count " bytes")
    printf "{\"%s\", \"%s\", {%s}, %s, %s, {%s}, {%s}, {%s%s}, {%s}},\n", name, again, point, number, samples, limits, made, t, place, bytes
}
