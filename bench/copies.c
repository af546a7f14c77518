/* SPDX-License-Identifier: MIT OR Apache-2.0 */
/* Stands in front of memcpy (linked by --wrap=memcpy) and tells at the end, on standard error, from where how many bytes were copied
 * how often: lines ADDRESS BYTES CALLS. */
#include <stddef.h>
#include <stdint.h>
#include <stdio.h>

void *__real_memcpy(void *to, const void *from, size_t bytes);
void *__wrap_memcpy(void *to, const void *from, size_t bytes);

enum { PLACES = 4096 };

static struct {
    uintptr_t caller;
    size_t bytes;
    unsigned long calls;
} seen[PLACES];

void *__wrap_memcpy(void *to, const void *from, size_t bytes) {
    uintptr_t caller = (uintptr_t)__builtin_return_address(0);
    size_t i = (caller * 31 + bytes) % PLACES;
    while (seen[i].calls != 0 && (seen[i].caller != caller || seen[i].bytes != bytes)) i = (i + 1) % PLACES;
    seen[i].caller = caller, seen[i].bytes = bytes, seen[i].calls++;
    return __real_memcpy(to, from, bytes);
}

__attribute__((destructor)) static void tell(void) {
    for (size_t i = 0; i < PLACES; i++)
        if (seen[i].calls != 0) fprintf(stderr, "%lu %zu %lu\n", (unsigned long)seen[i].caller, seen[i].bytes, seen[i].calls);
}
