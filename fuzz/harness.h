/* The harness, by the names that libFuzzer calls. */
#ifndef HARNESS_H
#define HARNESS_H

#include <stddef.h>
#include <stdint.h>

/* Once, before the first input. Holds what no input changes. */
int LLVMFuzzerInitialize(int *argc, char ***argv);

/* Holds one input. */
int LLVMFuzzerTestOneInput(const uint8_t *input, size_t size);

#endif
