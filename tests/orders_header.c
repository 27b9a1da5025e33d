/*
 * Holds include/orders.h to the library. Whatever is handed to it here goes by the header's names,
 * and what it answers has to stand where the names say; the answers expected are those of document
 * 02's request 2026-09. Prints the number of checks, or the first that fails.
 */
#include "orders_header/trial.h"

#include <stdio.h>

int main(void) {
    try_wrappers();
    try_refusals();
    try_places();
    printf("orders header: %u checks\n", checks);
    return 0;
}
