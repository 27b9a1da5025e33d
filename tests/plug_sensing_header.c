/*
 * Holds include/plug_sensing.h to the library. Whatever is handed to it here goes by the header's
 * names, and what it answers has to stand where the names say; the answers expected are those of
 * document 02's request 2026-07. Prints the number of checks, or the first that fails.
 */
#include "plug_sensing_header/trial.h"

#include <stdio.h>

int main(void) {
    try_wrapper();
    try_refusals();
    try_values();
    printf("plug sensing header: %u checks\n", checks);
    return 0;
}
