/*
 * Holds the numbers of include/post.h to the library. Whatever is done to a post here is done by
 * the header's names, and what the library answers has to stand where the names say; the answers
 * expected are those of documents 01 and 02. Prints the number of checks, or the first that fails.
 */
#include "header/trial.h"

#include <stdio.h>

int main(void) {
    try_refusals();
    try_phases();
    try_stops();
    try_records();
    printf("header: %u checks\n", checks);
    return 0;
}
