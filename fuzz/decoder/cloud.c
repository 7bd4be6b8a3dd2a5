/* 01, "What a reader hands over" and check 1. */
#include "../decoder.h"

uint8_t length_number(size_t len)
{
    return len > 2147483647 ? LIDAR_TOO_LONG : LIDAR_READ;
}

void cloud_open(struct cloud *cloud, uint8_t number)
{
    cloud->number = number;
    cloud->points = 0;
    cloud->frames = 0;
}

void cloud_add(struct cloud *cloud, uint8_t kind, uint32_t first, uint32_t second, uint32_t third)
{
    size_t at = cloud->points++;

    if (at >= MOST_POINTS)
        return;
    cloud->bits[3 * at] = first;
    cloud->bits[3 * at + 1] = second;
    cloud->bits[3 * at + 2] = third;
    cloud->kinds[at] = kind;
}
