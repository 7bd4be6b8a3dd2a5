/* 01, "Placing". */
#include <stdlib.h>

#include "../decoder.h"

int32_t pulses_of(const struct belt *belt)
{
    uint32_t difference = belt->count - belt->datum;
    int64_t pulses = difference;

    return (int32_t)(difference < 0x80000000 ? pulses : pulses - 0x100000000);
}

/* The micrometres in one of a reading's units, or 0 if it is not in whole millimetres. */
static int64_t unit_of(const struct reading *reading)
{
    switch (reading->stored) {
    case LIDAR_MILLIMETRES:
        return 1000;
    case LIDAR_TEN_MILLIMETRES:
        return 10000;
    default:
        return 0;
    }
}

uint8_t decode_placing(const struct reading *reading, const struct belt *belt, float *metres)
{
    int64_t unit = unit_of(reading);

    if (unit == 0)
        return LIDAR_NOT_PLACEABLE;
    if (belt->pulse_length < 1 || belt->pulse_length > 1000)
        return LIDAR_BAD_PULSE_LENGTH;
    int64_t micrometres = unit * reading->three[0] + (int64_t)pulses_of(belt) * belt->pulse_length;
    if (llabs(micrometres) > 16000000)
        return LIDAR_OUTSIDE_WINDOW;
    *metres = (float)micrometres / 1000000.0f;
    return LIDAR_READ;
}
