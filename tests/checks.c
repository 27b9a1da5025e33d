#include "checks.h"

#include <stdio.h>
#include <stdlib.h>
#include <string.h>

unsigned checks;

static const char *subject = "";
static unsigned long subject_number;

void check(const char *file, int line, const char *name, unsigned long found,
           unsigned long expected) {
    checks++;
    if (found == expected)
        return;
    printf("%s:%d: %s %lu: %s is %lu, not %lu\n", file, line, subject, subject_number, name, found,
           expected);
    exit(1);
}

void check_bytes(const char *name, const void *found, const void *expected, size_t length,
                 size_t origin) {
    const uint8_t *is = found, *wanted = expected;
    size_t i = 0;
    checks++;
    if (memcmp(is, wanted, length) == 0)
        return;
    while (is[i] == wanted[i])
        i++;
    printf("%s: %s %lu: byte %ld is %u, not %u\n", name, subject, subject_number,
           (long)i - (long)origin, is[i], wanted[i]);
    exit(1);
}

void about(const char *what, unsigned long number) {
    subject = what;
    subject_number = number;
}
