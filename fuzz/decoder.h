/* What a file means, told a second time: from the words of 01 and 02 and from nothing of the library, so
   that values are held and not only that two builds agree. decoder/ has a file for each of 01's modules. */
#ifndef DECODER_H
#define DECODER_H

#include "lidar.h"

enum {
    /* More points are counted, and not kept. */
    MOST_POINTS = 1 << 14,
    MOST_BEAMS = 128
};

/* What a reader is to tell, if there is room for it. */
struct cloud {
    uint8_t number;  /* of the first check that applies, but for that of the room */
    size_t points, frames;
    uint32_t bits[3 * MOST_POINTS];
    uint8_t kinds[MOST_POINTS];
};

/* 1 for data that is too long, else 0. */
uint8_t length_number(size_t len);

/* A cloud without points, and one point more. */
void cloud_open(struct cloud *cloud, uint8_t number);
void cloud_add(struct cloud *cloud, uint8_t kind, uint32_t first, uint32_t second, uint32_t third);

void decode_kitti(const uint8_t *bytes, size_t len, struct cloud *cloud);

/* ---- captures */

/* A payload, and the time that its record states. All is 0 where there is none. */
struct payload {
    size_t start, len;
    uint32_t seconds, fraction;
    uint8_t unit;
};

uint8_t capture_number(const uint8_t *bytes, size_t len);

/* The next payload from a place on, which then stands after its record; without one, it stays. */
bool decode_payload(const uint8_t *bytes, size_t len, bool savefile, uint16_t port, size_t *at,
                    struct payload *payload);

/* The points of all payloads on a port, each of which adds its own. */
typedef void add_points(const void *settings, const uint8_t *payload, size_t len, struct cloud *cloud);
void decode_capture(const uint8_t *bytes, size_t len, bool savefile, uint16_t port, add_points *add,
                    const void *settings, struct cloud *cloud);

/* ---- Velodyne */

enum { VELODYNE_PORT = 2368 };

uint8_t model_of(uint8_t factory_byte);
void decode_packet(const uint8_t *bytes, size_t len, struct cloud *cloud);
void decode_velodyne(const uint8_t *bytes, size_t len, bool savefile, struct cloud *cloud);

/* ---- Ouster */

struct ouster {
    size_t columns, beams;
    uint16_t port;
    const uint32_t *altitudes;  /* each by its pattern */
    size_t altitudes_len;
};

void decode_ouster(const uint8_t *bytes, size_t len, bool savefile, const struct ouster *settings,
                   struct cloud *cloud);

/* The settings made ready: os1_64 has 64 beams, os_128 has 128. */
struct ouster ouster_made_ready(size_t beams);

/* ---- Livox */

/* What a file stores of a point, as lidar_stored_reading tells it. */
struct reading {
    uint8_t stored;
    int64_t three[3];
};

void decode_livox(const uint8_t *bytes, size_t len, bool lvx2, struct cloud *cloud);

/* The number for a rank, and its reading, which is empty on a refusal. */
uint8_t decode_stored(const uint8_t *bytes, size_t len, bool lvx2, uint64_t rank, struct reading *reading);

/* ---- placing */

struct belt {
    uint32_t count, datum, pulse_length;
};

int32_t pulses_of(const struct belt *belt);

/* The number for a reading on the belt. A refusal leaves metres. */
uint8_t decode_placing(const struct reading *reading, const struct belt *belt, float *metres);

#endif
