# SPDX-License-Identifier: MIT OR Apache-2.0
# How the Rust module is compiled into an x86-64 static library, read by `. tools/module.sh` after tools/x86.sh: unchanged, from where it
# lies (GAUSS_JACKSON_RS, or among the documents beside the project), over the oracle's two stand-ins.
#   find_module                   whether it is there
#   need_module OUT               builds the stand-ins in the folder OUT
#   compile_over_module OUT ...   compiles a static library that says include!(concat!(env!("OUT_DIR"), "/module.rs"))
module_file=${GAUSS_JACKSON_RS:-../shared/docs/src/src/orbitprop/ode/gauss_jackson.rs}
module_wanted="the Rust module that the library comes from is not at $module_file; GAUSS_JACKSON_RS says where it is"

find_module() { [ -f "$module_file" ]; }

need_module() {
    find_module || lacks "$module_wanted"
    printf '#[path = "%s"]\n#[allow(dead_code, unused_imports)]\npub mod gauss_jackson;\n' "$(realpath "$module_file")" >"$1/module.rs"
    "$rust" --edition 2021 --crate-name serde --crate-type proc-macro --extern proc_macro oracle/serde/src/lib.rs --out-dir "$1"
    compile_rust --crate-name numeris --crate-type rlib oracle/numeris/src/lib.rs -o "$1/libnumeris.rlib"
}

compile_over_module() {
    folder=$(realpath "$1")
    shift
    OUT_DIR=$folder compile_rust_whole -L "$folder" --extern numeris="$folder/libnumeris.rlib" --extern serde="$folder/libserde.so" "$@"
}
