/* SPDX-License-Identifier: MIT OR Apache-2.0 */
/* A C main for the Rust examples, where an emulator runs them: what Rust does before its own main, not every emulator can. Rust finds the
 * words of the command line by itself. EXAMPLE is orbit_main or away_main. */
int EXAMPLE(void);

int main(void) { return EXAMPLE(); }
