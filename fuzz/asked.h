/* What an input asks beside its file: its last bytes, so that a file in front of them stays a file. An
   input without them asks with zeros. */
#ifndef ASKED_H
#define ASKED_H

#include <stdint.h>

enum {
    LONGEST = 1 << 16,  /* of a file */
    SETTINGS = 32,      /* the bytes after it, with these places */
    SIDES = 0,          /* a bit for each buffer: flush with the start of its pages or with their end */
    BEYOND = 1,         /* how much more room than needed: numbers, kinds */
    PORT = 2,
    COLUMNS = 4,
    BEAMS = 5,          /* a place in BEAMS_OF */
    ALTITUDES = 6,      /* how many elevations, beside the beams: 0 is one too few */
    FAR = 7,            /* a bit each: columns and beams are 2^32 more */
    CANARY = 8,
    COUNT = 12,
    DATUM = 16,
    PULSE_LENGTH = 20,
    RANK = 24           /* also a place in a capture, and a reading to be placed */
};

static const uint8_t BEAMS_OF[8] = {16, 32, 64, 128, 0, 17, 48, 129};

#endif
