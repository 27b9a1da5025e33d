/* What the headers' tests share: checks, each of which ends the program with a line at the first
 * difference. */
#ifndef CHECKS_H_INCLUDED
#define CHECKS_H_INCLUDED

#include <stddef.h>
#include <stdint.h>

extern unsigned checks; /* so many were made */

#define CHECK(found, expected) CHECK_NAMED(#found, found, expected)
#define CHECK_NAMED(name, found, expected)                                                         \
    check(__FILE__, __LINE__, name, (unsigned long)(found), (unsigned long)(expected))
void check(const char *file, int line, const char *name, unsigned long found,
           unsigned long expected);

/* Of two records of bytes. The first byte that differs is told by its place, counted from
 * `origin`. */
void check_bytes(const char *name, const void *found, const void *expected, size_t length,
                 size_t origin);

/* What the checks that follow are about, for that line. */
void about(const char *what, unsigned long number);

#endif
