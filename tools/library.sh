# SPDX-License-Identifier: MIT OR Apache-2.0
# The proved library, for tools/x86.sh. need_library: $library is its file, which GJ_LIBRARY names, or else one that is proved and written
# here; $dense is 1 where it has the interpolation, else 0 (WITH_DENSE says otherwise).

# What the library is made of: the kit, the crates, and the file itself.
library_stamp() {
    {
        rt version
        cat crates.txt
        find crates \( -path '*/src/*' -o -path '*/specs/*' -o -path '*/proofs/*' \) -type f -exec sha256sum {} + | sort
        sha256sum <"$library"
    } | sha256sum
}

# Streams a line for each crate as it is proved; the whole log is shown where something is not.
stream_proofs() {
    { (cd crates/app && rt lib) 2>&1 && echo "all proved"; } | tee "$1" | while IFS= read -r line; do
        case $line in 'rt: chose '*' for '*) echo "    ${line##* for }" >&2 ;; esac
    done
    [ "$(tail -n 1 "$1")" = 'all proved' ] || { cat "$1" >&2; echo "the library is not proved: see above" >&2; exit 1; }
    echo "    app proved, and the library written" >&2
}

prove_library() {
    library=target/staticlib/libgauss_jackson.a
    stamp=target/staticlib/gauss_jackson.stamp
    if [ -f $library ] && [ -f $stamp ] && [ "$(cat $stamp)" = "$(library_stamp)" ]; then return; fi
    mkdir -p target/staticlib
    echo "Proving the library. From nothing this takes about five minutes; a line for each crate follows." >&2
    stream_proofs target/staticlib.log
    cp crates/app/out/libapp.a $library
    library_stamp >$stamp
}

# Leaves of the library by themselves, for tests/roots and bench/, which are proved here or not at all: $probe is their archive.
need_probe() {
    [ -n "$kit" ] || lacks "$kit_wanted"
    mkdir -p target
    (cd crates/probe && rt lib) >target/probe.log 2>&1 || { cat target/probe.log >&2; echo "the probe is not proved: see above" >&2; exit 1; }
    probe=crates/probe/out/libprobe.a
}

# The calls that the header declares, and its part on whole numbers, a line each.
declared_calls() { sed -n 's/^[a-z].* \**\(gj_[a-z_]*\)(.*/\1/p' include/gauss_jackson.h include/gauss_jackson_whole.h; }

need_library() {
    if [ -n "${GJ_LIBRARY:-}" ]; then
        [ -f "$GJ_LIBRARY" ] || lacks "GJ_LIBRARY=\"$GJ_LIBRARY\" names no file"
        library=$GJ_LIBRARY
    else
        prove_library
    fi
    if grep -aq gj_interpolate_batch "$library"; then dense=${WITH_DENSE:-1}; else dense=${WITH_DENSE:-0}; fi
}
