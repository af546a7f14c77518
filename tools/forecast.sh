# SPDX-License-Identifier: MIT OR Apache-2.0
# The program forecast (W-207), for tests/forecast, bench/forecast, dist/ and examples/, read by `. tools/forecast.sh` after tools/x86.sh.
#   GJ_FORECAST      the file of an x86-64 program to take in place of the proved one, by a full path or from the project's root
#   need_forecast    $program is its file, and $forecast the words that run it, but for an emulator: `run $forecast` runs it
#   find_forecast    the same, or an empty $program where none is named and nothing can be proved
need_forecast() {
    if [ -n "${GJ_FORECAST:-}" ]; then
        [ -f "$GJ_FORECAST" ] || lacks "GJ_FORECAST=\"$GJ_FORECAST\" names no file, from the project's root"
        program=$GJ_FORECAST forecast=$(words_for "$GJ_FORECAST")
        return
    fi
    [ -n "$kit" ] || lacks "$kit_wanted"
    program=target/bin/forecast
    [ -x $program ] || echo "Proving the program forecast; from nothing this takes some minutes." >&2
    # Where nothing has changed since, nothing is proved again.
    mkdir -p target
    (cd crates/forecast && rt run </dev/null) >target/forecast.log 2>&1 || { cat target/forecast.log >&2; exit 1; }
    mkdir -p target/bin
    cmp -s crates/forecast/out/forecast $program || cp crates/forecast/out/forecast $program
    # As rt runs it.
    forecast=$(under_the_kit $program)
}

find_forecast() { if [ -n "${GJ_FORECAST:-}$kit" ]; then need_forecast; else program=; fi; }

# FILE: the words that run it under the kit's loader and C library.
under_the_kit() { echo "$kit/lib/ld-linux-x86-64.so.2 --library-path $kit/lib $1"; }

# FILE: the words that run it over this machine's own C library. Another processor may have none for x86-64: there over the kit's.
words_for() {
    if [ "$machine" != x86_64 ] && [ -n "$kit" ] && grep -aq /ld-linux-x86-64.so.2 "$1"; then under_the_kit "$1"; else echo "$1"; fi
}

# OUT NAME FLAG..: the program in plain C, in the folder OUT under that name; with -DBY_PRINTF it prints by printf.
build_plain_forecast() {
    folder=$1 name=$2
    shift 2
    awk -f tools/tables/coefficients.awk crates/tables/src/?_rows.rt | awk -f tools/tables/header.awk >"$folder/tables.h"
    compile $static "-I$folder" -Ibench "$@" bench/forecast.c -o "$folder/$name"
}
