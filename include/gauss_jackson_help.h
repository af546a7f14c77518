/* SPDX-License-Identifier: MIT OR Apache-2.0 */
/* Part of gauss_jackson.h: what keeps a header and a library of different GJ_ABI from linking. */
#ifndef GAUSS_JACKSON_HELP_H
#define GAUSS_JACKSON_HELP_H

/* The library has a function whose name ends in its own GJ_ABI. Each file that includes the header refers to the one of the header's
 * number, so that a program built with another one does not link: "undefined reference to gj_abi_N". */
#define GJ_ABI_NAME_OF(number) gj_abi_##number
#define GJ_ABI_NAME(number) GJ_ABI_NAME_OF(number)
uint32_t GJ_ABI_NAME(GJ_ABI)(void); /* gives the number */

/* Kept where nothing uses it, and by linkers that drop unused sections. */
#if defined(__has_attribute)
#if __has_attribute(retain)
#define GJ_KEPT __attribute__((used, retain))
#endif
#endif
#ifndef GJ_KEPT
#define GJ_KEPT __attribute__((used))
#endif
GJ_KEPT static uint32_t (*const gj_abi_of_this_header)(void) = GJ_ABI_NAME(GJ_ABI);
#undef GJ_KEPT

#endif
