/* SPDX-License-Identifier: MIT OR Apache-2.0 */
#ifndef BARE_UNISTD_H
#define BARE_UNISTD_H
int isatty(int file);
int fsync(int file);
#endif
