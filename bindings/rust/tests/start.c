/* SPDX-License-Identifier: MIT OR Apache-2.0 */
/* Linked into test programs that an emulator runs. Before its own main Rust asks for the bounds of the stack by this call, which reads the
 * program's map of memory; the kit's emulator stops there. Refused, Rust goes on without a guard page. */
int pthread_getattr_np(void);

int pthread_getattr_np(void) { return 38; /* not to be had */ }
