# SPDX-License-Identifier: MIT OR Apache-2.0
# The parts of bench/run and bench/where: building, measuring, printing. $out is the folder of what is built.
columns='module module-1 plain library'
points='epoch survey pass step tail'
objects='plain plain_read plain_open plain_stored library driver'

# bench/where finds names by address, so a program must lie where it was linked. One for an emulator does: it is linked whole.
if [ "$with" = cross ] && [ -z "$static" ]; then static=-no-pie; fi

# The objects of $objects, as files.
object_files() { for part in $objects; do echo "$out/$part.o"; done; }

# The columns that have a work: the module has no stored runs, and no root of its own.
columns_of() { case $1 in root | store-* | load-*) echo plain library ;; *) echo "$columns" ;; esac; }

# Every work that the words name: store and load stand for themselves at each of the points.
all_works() {
    for word; do
        case $word in
        store | load) for point in $points; do echo "$word-$point"; done ;;
        *) echo "$word" ;;
        esac
    done
}

# Tables A and B for the plain loop, out of the library's own source.
write_tables() {
    awk -f tools/tables/coefficients.awk crates/tables/src/?_rows.rt >$out/coefficients
    awk -f tools/tables/header.awk $out/coefficients
}

# NAME FLAGS: a driver over the module as the flags compile it. Both have opt-level 3 and LTO.
build_driver() {
    name=$1
    shift
    compile_over_module $out --crate-name module "$@" bench/module.rs -o "$out/lib$name.a"
    link_rust $(object_files) "$out/lib$name.a" "$library" "$probe" -o "$out/driver-$name"
}

build_drivers() {
    need_module $out
    write_tables >$out/tables.h
    for part in $objects; do
        compile -O3 -I$out -Ibench -c bench/$part.c -o $out/$part.o
    done
    build_driver module
    build_driver module-1 -C codegen-units=1 -C panic=abort
}

# COLUMN WORK BEFORE..: the driver that has the column, after the words that run it.
drive() {
    column=$1 work=$2
    shift 2
    case $column in
    module-1) "$@" $out/driver-module-1 module "$work" ;;
    *) "$@" $out/driver-module "$column" "$work" ;;
    esac
}

# An emulator that takes plugins, and ours built for it; nothing where there is none.
find_counter() {
    counter=${QEMU_PLUGINS:-$(command -v qemu-x86_64)} || counter=
    [ -n "$counter" ] || return 0
    cc -shared -fPIC -O2 -Wall -Wextra bench/count.c -o $out/count.so && count none year 2>/dev/null || counter=
}

# A line of answers, seconds and digest.
measure() { drive "$1" "$2" run >"$out/$1.$2"; }

# The instructions that the work takes, by address. Without an environment: what stands on the stack moves what is below it, and a copy
# takes some instructions more or less by how it lies.
count() { drive "$1" "$2" env -i "$counter" -plugin "$out/count.so,to=$out/$1.$2.count" >/dev/null; }

# WORK FIELDS COLUMN..: those fields of each column's line are those of the first one's.
same_fields() {
    work=$1 fields=$2 first=$3
    shift 3
    wanted=$(cut -d' ' -f"$fields" "$out/$first.$work")
    for column; do
        [ "$(cut -d' ' -f"$fields" "$out/$column.$work")" = "$wanted" ] ||
            { echo "$work: the results of $column are not those of $first" >&2; exit 1; }
    done
}

# Of the columns that have the work: each has what the first has. The module tells no accelerations between samples.
same_results() {
    same_fields "$1" 1,3 $(columns_of "$1")
    case $1 in single | batch) same_fields "$1" 4 plain library ;; esac
}

# WORK OF FORM MODULE MODULE-1 PLAIN LIBRARY, a column that has not the work being '-'
print_row() {
    awk -v work="$1" -v of="$2" -v form="%.$3" -v a="$4" -v b="$5" -v c="$6" -v d="$7" '
        function cell(x) { return sprintf(" %10s", x == "-" ? x : sprintf(form, x)) }
        function over(x) { return x == "-" ? x : sprintf("%.2f", d / x) }
        BEGIN { printf "%-14s %-21s%s%s%s%s   %s %s %s\n", work, of, cell(a), cell(b), cell(c), cell(d), over(a), over(b), over(c) }'
}

# TELLER WORK: what it tells of each column, '-' of one that has not the work.
of_each_column() {
    for column in $columns; do
        case " $(columns_of "$2") " in *" $column "*) "$1" "$column" "$2" ;; *) echo - ;; esac
    done
}

seconds_of() { cut -d' ' -f2 "$out/$1.$2"; }

seconds_row() { print_row "$1" seconds 3f $(of_each_column seconds_of "$1"); }

# Instructions a COLUMN needs for an answer (or a time read, or a call) of a WORK, beyond what the driver itself takes.
per_answer() {
    awk -v answers="$answers" 'NR == FNR { own += $2; next } { all += $2 } END { printf "%.3f\n", (all - own) / answers }' \
        "$out/none.$2.count" "$out/$1.$2.count"
}

count_row() {
    for column in none $(columns_of "$1"); do count "$column" "$1"; done
    answers=$(cut -d' ' -f1 "$out/plain.$1")
    print_row "$1" "instructions/$answers" 1f $(of_each_column per_answer "$1")
}
