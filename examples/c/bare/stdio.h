/* SPDX-License-Identifier: MIT OR Apache-2.0 */
#ifndef BARE_STDIO_H
#define BARE_STDIO_H
#include <stddef.h>
typedef struct FILE FILE;
extern FILE *stdout, *stderr;
FILE *fopen(const char *restrict path, const char *restrict how);
int fclose(FILE *file);
size_t fread(void *restrict to, size_t size, size_t count, FILE *restrict file);
size_t fwrite(const void *restrict from, size_t size, size_t count, FILE *restrict file);
int fileno(FILE *file);
int rename(const char *from, const char *to);
void perror(const char *of);
int printf(const char *restrict form, ...) __attribute__((format(printf, 1, 2)));
int fprintf(FILE *restrict to, const char *restrict form, ...) __attribute__((format(printf, 2, 3)));
int snprintf(char *restrict to, size_t size, const char *restrict form, ...) __attribute__((format(printf, 3, 4)));
int puts(const char *text);
int putchar(int letter);
int fputs(const char *restrict text, FILE *restrict to);
int fflush(FILE *to);
int ferror(FILE *of);
#endif
