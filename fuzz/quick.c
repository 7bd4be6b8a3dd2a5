/* Runs the harness without a fuzzer: on every input that is named, and on copies of each that are damaged
   from a fixed seed.

     quick FOUND COPIES INPUT..

   An input that breaks a promise is written to FOUND. */
#include <fcntl.h>
#include <signal.h>
#include <stdbool.h>
#include <stdio.h>
#include <stdlib.h>
#include <string.h>
#include <unistd.h>

#include "asked.h"
#include "harness.h"
#include "random.h"

enum { PATIENCE = 60 /* seconds, for an input */ };

static uint8_t input[LONGEST + SETTINGS];
static size_t size;
static uint64_t random_state = 1;

/* Where the run stands, for the message. */
static const char *found, *path;
static unsigned long inputs, copy;

static uint64_t random_below(uint64_t bound) { return next(&random_state) % bound; }

static void stopped(int signal)
{
    int file = open(found, O_WRONLY | O_CREAT | O_TRUNC, 0644);
    bool kept = file >= 0 && write(file, input, size) == (ssize_t)size;

    if (inputs == 0)
        fprintf(stderr, "fuzz: signal %d before the first input\n", signal);
    else
        fprintf(stderr, "fuzz: signal %d at input %lu, copy %lu of %s, %s %s\n", signal, inputs, copy, path,
                kept ? "kept in" : "which cannot be kept in", found);
    _exit(1);
}

/* ---- damage */

/* A number that means something, over one to eight bytes, in either order. */
static void put_number(uint8_t *at, size_t room)
{
    static const uint64_t numbers[] = {
        0, 1, 2, 3, 4, 5, 8, 9, 10, 14, 16, 24, 27, 42, 43, 0x45, 0x7f, 0x80, 0xff, 1000, 1001, 1206, 2368,
        7502, 0x2000, 0x4000, 0x7fff, 0x8000, 0xffee, 0xffff, 0x7fffffff, 0x80000000, 0xffffffff, -24ull,
        -8ull, -1ull,
    };
    uint64_t number = numbers[random_below(sizeof numbers / sizeof *numbers)];
    size_t len = (size_t)1 << random_below(4);
    bool turned = random_below(2);

    for (size_t i = 0; i < len && len <= room; i++)
        at[turned ? len - 1 - i : i] = (uint8_t)(number >> 8 * i);
}

/* One edit: often of what is asked or of the opening bytes, else anywhere. */
static void edit(void)
{
    size_t file = size - SETTINGS;
    size_t at = file == 0 || random_below(4) == 0 ? file + random_below(SETTINGS)
                                                  : random_below(1 + random_below(file));

    switch (random_below(4)) {
    case 0:
        input[at] ^= (uint8_t)(1 << random_below(8));
        break;
    case 1:
        input[at] = (uint8_t)random_below(256);
        break;
    case 2:
        put_number(input + at, size - at);
        break;
    default: {
        size_t from = random_below(size), len = random_below(64);
        size_t room = size - (from > at ? from : at);
        memmove(input + at, input + from, len < room ? len : room);
    }
    }
}

/* Cuts the file, and keeps what is asked of it. */
static void cut(void)
{
    size_t file = size - SETTINGS, left = random_below(file + 1);

    memmove(input + left, input + file, SETTINGS);
    size = left + SETTINGS;
}

static void damage(void)
{
    if (random_below(8) == 0)
        cut();
    for (uint64_t edits = 1 + random_below(4); edits > 0; edits--)
        edit();
}

/* ---- the run */

static void read_input(const char *from)
{
    FILE *file = fopen(from, "rb");

    path = from;
    size = file ? fread(input, 1, sizeof input, file) : 0;
    if (!file || ferror(file) || size < SETTINGS) {
        fprintf(stderr, "quick: %s is no input\n", from);
        exit(2);
    }
    fclose(file);
}

static void hold(void)
{
    alarm(PATIENCE);
    inputs++;
    LLVMFuzzerTestOneInput(input, size);
}

static void hold_copies(unsigned long copies)
{
    static uint8_t whole[sizeof input];
    size_t whole_size = size;

    memcpy(whole, input, size);
    for (copy = 1; copy <= copies; copy++) {
        memcpy(input, whole, whole_size);
        size = whole_size;
        damage();
        hold();
    }
}

int main(int argc, char **argv)
{
    static const int signals[] = {SIGABRT, SIGSEGV, SIGBUS, SIGILL, SIGFPE, SIGALRM};

    if (argc < 4) {
        fprintf(stderr, "usage: quick FOUND COPIES INPUT..\n");
        return 2;
    }
    found = argv[1];
    for (size_t i = 0; i < sizeof signals / sizeof *signals; i++)
        signal(signals[i], stopped);
    LLVMFuzzerInitialize(&argc, &argv);
    for (int i = 3; i < argc; i++) {
        read_input(argv[i]);
        hold();
    }
    for (int i = 3; i < argc; i++) {
        read_input(argv[i]);
        hold_copies(strtoul(argv[2], NULL, 10));
    }
    printf("fuzz: %lu inputs held\n", inputs);
    return 0;
}
