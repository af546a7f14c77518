// SPDX-License-Identifier: MIT OR Apache-2.0
//! The ABI's number, which the library has in the name of a function. A library of another number does not link with this crate.

extern "C" {
    // The number stands here, and nowhere else in the crate; it goes up with the header's GJ_ABI.
    #[link_name = "gj_abi_3"]
    fn abi() -> u32;
}

/// Called by each function that a program can begin with, so that the linker looks for the name: a static that refers to it is dropped.
pub(crate) fn must_be_ours() {
    // It takes nothing and gives the number.
    unsafe { abi() };
}
