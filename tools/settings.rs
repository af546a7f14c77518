// SPDX-License-Identifier: MIT OR Apache-2.0
// The settings as the module has them; included where `Settings` and `GJSettings` are in scope.
fn settings(s: &Settings) -> GJSettings<f64> {
    GJSettings {
        h: s.h,
        max_corrector_iters: s.max_corrector_iters as usize,
        corrector_tol: s.corrector_tol,
        max_startup_iters: s.max_startup_iters as usize,
        startup_tol: s.startup_tol,
        max_steps: s.max_steps as usize,
        dense_output: s.samples == 1,
    }
}
