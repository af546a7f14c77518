/* SPDX-License-Identifier: MIT OR Apache-2.0 */
/* GJ_RUST 0 leaves out the Rust crate. */
#include "abi.h"

int checks, failures;

int main(void) {
    layout_of_settings();
    layout_of_replies();
    layout_of_costs();
    layout_of_runs();
    results();
    rooms();
    promises();
    between();
    stored_refusals();
    stored_runs();
    whole_starts();
    whole_runs();
#if GJ_RUST
    check(wrapper_between_numbers() == GJ_BETWEEN_NUMBERS, "the Rust crate's BETWEEN_NUMBERS is the header's");
    check(wrapper_sample_numbers() == GJ_SAMPLE_NUMBERS, "the Rust crate's SAMPLE_NUMBERS is the header's");
    check(wrapper_stored_size() == GJ_STORED_SIZE, "the Rust crate's STORED_SIZE is the header's");
    for (uint16_t number = 1; number <= 30; number++)
        check(wrapper_says(number, gj_refusal_text(number)) == is_named(number), "the Rust crate's number and text of a refusal are the header's");
    failures += wrapper_failures();
#endif
    printf("%d checks of the C header%s, %d failed%s\n", checks, GJ_DENSE ? "" : ", interpolation left out", failures,
           GJ_RUST ? " (the Rust crate's too)" : "");
    return failures != 0;
}
