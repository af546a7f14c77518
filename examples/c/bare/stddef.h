/* SPDX-License-Identifier: MIT OR Apache-2.0 */
#ifndef BARE_STDDEF_H
#define BARE_STDDEF_H
typedef unsigned long size_t;
typedef long ptrdiff_t;
#define NULL ((void *)0)
#define offsetof(type, field) __builtin_offsetof(type, field)
#endif
