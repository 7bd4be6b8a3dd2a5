/* A belt after a fortnight: its travel kept as a float, and a point placed by pulses.

   The belt runs at 0.3 m/s, a pulse of its encoder is 250 micrometres, and a case is seen 1500 mm
   along the belt. */
#include <stdio.h>
#include "lidar.h"

enum { PULSE_LENGTH = 250, PULSES_A_SECOND = 1200, SEEN_AT = 1500 };

/* The whole travel in metres, as the old code kept it. */
static float travel(uint64_t pulses) {
    return (float)(pulses * (PULSE_LENGTH / 1e6));
}

int main(void) {
    uint64_t seen = 14ull * 24 * 60 * 60 * PULSES_A_SECOND;

    printf("The belt has run %.0f m.\n", seen * (PULSE_LENGTH / 1e6));
    printf("%12s %12s %12s\n", "exact mm", "float mm", "placed mm");
    for (uint64_t moved = 0; moved <= 280; moved += 40) {
        uint64_t now = seen + moved;
        float old = SEEN_AT / 1000.0f + (travel(now) - travel(seen));
        float placed;
        /* The encoder keeps 32 bits of its count. */
        uint8_t number = lidar_place_millimetres(SEEN_AT, (uint32_t)now, (uint32_t)seen,
                                                 PULSE_LENGTH, &placed);
        if (number != LIDAR_READ)
            return number;
        printf("%12.4f %12.4f %12.4f\n", SEEN_AT + moved * (PULSE_LENGTH / 1e3), old * 1e3,
               placed * 1e3);
    }
    return 0;
}
