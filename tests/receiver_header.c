/*
 * Holds include/receiver.h to the library. Whatever is done to a receiver here is done by the
 * header's names, and what the library answers has to stand where the names say; the answers
 * expected are those of document 02's request 2026-02, one call at a time: lists of calls are what
 * tests/receiver_compare has. Prints the number of checks, or the first that fails.
 */
#include "receiver_header/trial.h"

#include <stdio.h>

int main(void) {
    try_wrappers();
    try_refusals();
    try_registers();
    try_ring();
    printf("receiver header: %u checks\n", checks);
    return 0;
}
