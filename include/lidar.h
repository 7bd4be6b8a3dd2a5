/* The lidar readers, for C and C++. Link liblidar.a, which `./staticlib` writes. */
#ifndef LIDAR_H
#define LIDAR_H

#include <stdbool.h>
#include <stddef.h>
#include <stdint.h>

#ifdef __cplusplus
extern "C" {
#endif

/* The number that a reader, a placing and a call by rank give back: 0 when the data was read, else why
   it was refused. Each call has its checks in a fixed order of its own, and the first that applies
   gives the number. */
enum lidar_number {
    LIDAR_READ = 0,               /* or, of a point, that it was placed or told */
    LIDAR_TOO_LONG = 1,           /* the data is longer than 2147483647 bytes */
    LIDAR_BAD_SETTINGS = 2,       /* Ouster: beams not 16, 32, 64 or 128, columns outside 1 to 64,
                                     or fewer elevations than beams */
    LIDAR_TOO_SHORT = 3,          /* below 24 bytes (capture, LVX) or 28 (LVX2) */
    LIDAR_WRONG_MARK = 4,         /* the opening bytes are not those of the format */
    LIDAR_WRONG_CODE = 5,         /* LVX: the code at offset 20 is not 0xAC0EA767 */
    LIDAR_HEADER_TOO_SHORT = 6,   /* LVX: below 29 bytes */
    LIDAR_DEVICES_PAST_END = 7,   /* Livox: the device section ends past the data */
    LIDAR_NOT_WHOLE_RECORDS = 8,  /* KITTI: the length is not a multiple of 16 bytes */
    LIDAR_NO_PAYLOAD = 9,         /* capture: no payload on the reader's port */
    LIDAR_NO_ROOM = 10,           /* a buffer is too short; *points tells the points needed */
    LIDAR_NOT_PLACEABLE = 11,     /* no whole-millimetre Livox point to place, or none of that rank */
    LIDAR_BAD_PULSE_LENGTH = 12,  /* placing: outside 1 to 1000 micrometres */
    LIDAR_OUTSIDE_WINDOW = 13     /* placing: beyond 16000000 micrometres either way */
};

/* The kind of a point, which says what its three numbers are. */
enum lidar_kind {
    LIDAR_CARTESIAN = 1,  /* x, y, z in metres */
    LIDAR_POLAR = 2       /* range in metres, then elevation and azimuth in degrees,
                             unless a call says otherwise */
};

/* For every call below: data and data_len are the file's bytes, payload and payload_len those of one
   packet, which are only read.

   The caller owns all memory. A call keeps no pointer and allocates nothing.
   No pointer may be null, even where its length is 0. Each must be aligned for its type.
   What a call writes may overlap neither what it reads nor anything else that it writes. */

/* ---- point clouds

   numbers, numbers_len   takes three floats a point, from the start; the length counts floats
   bits, bits_len         the same, with each float as its 32-bit pattern; the length counts patterns
   kinds, kinds_len       takes one kind a point, from the start; the length counts bytes
   points                 takes the number of points read
   frames                 takes the number of Livox frames entered, 0 for other files

   What lies beyond the points in a buffer stays as it was. A refusal changes nothing in either
   buffer. *points and *frames are always written: on a refusal they are 0, except that
   LIDAR_NO_ROOM writes the points needed to *points. */

/* Reads a KITTI velodyne file: records of four floats, the fourth dropped. Every point is Cartesian.
   A NaN arrives as a NaN, but which one is left open; every other float arrives bit for bit. */
uint8_t lidar_read_kitti(const uint8_t *data, size_t data_len,
                         float *numbers, size_t numbers_len,
                         uint8_t *kinds, size_t kinds_len,
                         size_t *points, size_t *frames);

/* The same, with each float's pattern as the file stores it: a NaN, too, arrives bit for bit. */
uint8_t lidar_read_kitti_bits(const uint8_t *data, size_t data_len,
                              uint32_t *bits, size_t bits_len,
                              uint8_t *kinds, size_t kinds_len,
                              size_t *points, size_t *frames);

/* Reads a Livox file, LVX or LVX2. Points of integers or floats are Cartesian; spherical points are
   polar, with the zenith angle in the place of the elevation. In LVX, a float record's NaN arrives as a
   NaN, but which one is left open; every other float arrives bit for bit. */
uint8_t lidar_read_lvx(const uint8_t *data, size_t data_len,
                       float *numbers, size_t numbers_len,
                       uint8_t *kinds, size_t kinds_len,
                       size_t *points, size_t *frames);

uint8_t lidar_read_lvx2(const uint8_t *data, size_t data_len,
                        float *numbers, size_t numbers_len,
                        uint8_t *kinds, size_t kinds_len,
                        size_t *points, size_t *frames);

/* The same, with each float as its pattern: float records as the file stores them, a NaN too. */
uint8_t lidar_read_lvx_bits(const uint8_t *data, size_t data_len,
                            uint32_t *bits, size_t bits_len,
                            uint8_t *kinds, size_t kinds_len,
                            size_t *points, size_t *frames);

uint8_t lidar_read_lvx2_bits(const uint8_t *data, size_t data_len,
                             uint32_t *bits, size_t bits_len,
                             uint8_t *kinds, size_t kinds_len,
                             size_t *points, size_t *frames);

/* Reads a capture of Velodyne packets, which are the payloads on port 2368. Every point is polar.
   savefile names the reading, as for captures below; lidar_read_velodyne takes no savefile, and
   its reading is the usual one. */
uint8_t lidar_read_velodyne_as(const uint8_t *data, size_t data_len, bool savefile,
                               float *numbers, size_t numbers_len,
                               uint8_t *kinds, size_t kinds_len,
                               size_t *points, size_t *frames);

uint8_t lidar_read_velodyne(const uint8_t *data, size_t data_len,
                            float *numbers, size_t numbers_len,
                            uint8_t *kinds, size_t kinds_len,
                            size_t *points, size_t *frames);

/* Reads one Velodyne packet. It has no point if it is below 1206 bytes, and at most 384. Refuses with
   LIDAR_TOO_LONG or LIDAR_NO_ROOM alone. */
uint8_t lidar_decode_velodyne_packet(const uint8_t *payload, size_t payload_len,
                                     float *numbers, size_t numbers_len,
                                     uint8_t *kinds, size_t kinds_len,
                                     size_t *points, size_t *frames);

/* The model that a packet's byte at 1205 names. */
enum lidar_velodyne_model {
    LIDAR_VLP16 = 0,
    LIDAR_HDL32E = 1,
    LIDAR_VLP32C = 2,
    LIDAR_UNKNOWN_MODEL = 3  /* elevations as for LIDAR_VLP32C */
};

uint8_t lidar_detect_velodyne_model(uint8_t factory_byte);

/* Reads a capture of Ouster packets of the legacy profile. Every point is polar, with the azimuth in
   radians.

   columns_per_packet   1 to 64
   pixels_per_column    the beams: 16, 32, 64 or 128
   lidar_port           the packets' destination port; 0 asks for every one
   beam_altitudes       the elevation of each beam in degrees, at least pixels_per_column of them,
                        which are only read; a NaN among them arrives as some NaN
   savefile             as for Velodyne */
uint8_t lidar_read_ouster_as(const uint8_t *data, size_t data_len, bool savefile,
                             size_t columns_per_packet, size_t pixels_per_column,
                             uint16_t lidar_port,
                             const float *beam_altitudes, size_t beam_altitudes_len,
                             float *numbers, size_t numbers_len,
                             uint8_t *kinds, size_t kinds_len,
                             size_t *points, size_t *frames);

uint8_t lidar_read_ouster(const uint8_t *data, size_t data_len,
                          size_t columns_per_packet, size_t pixels_per_column,
                          uint16_t lidar_port,
                          const float *beam_altitudes, size_t beam_altitudes_len,
                          float *numbers, size_t numbers_len,
                          uint8_t *kinds, size_t kinds_len,
                          size_t *points, size_t *frames);

/* The settings of two sensors, with 64 and 128 elevations. Port 7502, 16 columns. */
void lidar_os1_64(size_t *columns_per_packet, size_t *pixels_per_column, uint16_t *lidar_port,
                  float beam_altitudes[64]);

void lidar_os_128(size_t *columns_per_packet, size_t *pixels_per_column, uint16_t *lidar_port,
                  float beam_altitudes[128]);

/* ---- captures: the UDP payloads of a libpcap savefile

   savefile   the reading. false is that of the original, threecrate's lidar.rs: it takes the byte
              order of lengths from the magic the wrong way round, a payload runs to its record's end,
              padding included, and a fragment is read like a whole datagram. true is the format's: a
              payload has as many bytes as its UDP length says, less the header's 8, and a record is
              passed over if its IPv4 header is below 20 bytes (an IHL below 5), if it holds a
              fragment, or if its UDP length is below 9 or more than the record holds from the UDP
              header on, as where the capture cut the datagram
   port       the destination port; 0 asks for every one
   start      takes where the payload's first byte stands in the data
   len        takes the payload's length
   seconds    takes the seconds since 1970 that the payload's record states
   fraction   takes the fraction of a second as the record stores it: it may be a second or more
   unit       takes what the fraction counts, which the magic says: an enum lidar_time_unit

   All five are always written: where there is a payload, *len is at least 1, and where there is none,
   all are 0, whatever the magic says. The byte order of seconds and fraction is that of the lengths,
   by the reading; the unit is the same in both readings.
   The calls without `savefile` use the usual reading, which is the original's. */

enum lidar_time_unit {
    LIDAR_MICROSECONDS = 0,
    LIDAR_NANOSECONDS = 1
};

/* Finds the payload of a rank, counted from 0. Gives back LIDAR_READ, whether or not there is one,
   or LIDAR_TOO_LONG, LIDAR_TOO_SHORT or LIDAR_WRONG_MARK. Takes time for the records up to that
   payload: to go through all of them, use lidar_next_payload. */
uint8_t lidar_payload_place_as(const uint8_t *data, size_t data_len, bool savefile,
                               uint16_t port, size_t rank, size_t *start, size_t *len,
                               uint32_t *seconds, uint32_t *fraction, uint8_t *unit);

uint8_t lidar_payload_place(const uint8_t *data, size_t data_len,
                            uint16_t port, size_t rank, size_t *start, size_t *len,
                            uint32_t *seconds, uint32_t *fraction, uint8_t *unit);

/* Finds the next payload, and gives back whether there was one. *at is where the walk stands: 0
   before the first call, and then what the last call left in it, the end of the payload's record,
   after any padding. 1 to 23 stand for 24, as 0 does, where the first record starts; from any other
   place it goes on as if a record started there. Where there is no payload more, or the capture is
   refused, *at stays.

       size_t at = 0, start, len;
       uint32_t seconds, fraction;
       uint8_t unit;
       while (lidar_next_payload(data, data_len, port, &at, &start, &len,
                                 &seconds, &fraction, &unit))
           use(data + start, len, seconds, fraction, unit);
*/
bool lidar_next_payload_as(const uint8_t *data, size_t data_len, bool savefile,
                           uint16_t port, size_t *at, size_t *start, size_t *len,
                           uint32_t *seconds, uint32_t *fraction, uint8_t *unit);

bool lidar_next_payload(const uint8_t *data, size_t data_len,
                        uint16_t port, size_t *at, size_t *start, size_t *len,
                        uint32_t *seconds, uint32_t *fraction, uint8_t *unit);

/* ---- placing a Livox point on the belt

   count          the belt encoder's count now, and
   datum          the count when the point was seen; both wrap at 2^32
   pulse_length   how far the belt moves in a pulse: 1 to 1000 micrometres
   metres         takes the distance along the belt. A refusal leaves it as it was

   The exact distance is the point's x in micrometres, plus the pulses since the datum, below 0 where the
   belt ran back, times pulse_length. What is told is within half a micrometre of it, however often the
   count has wrapped, as long as the belt moved by less than 2^31 pulses either way. Beyond 16 m either
   way it is refused with LIDAR_OUTSIDE_WINDOW. */

/* Places a point by its stored x: in millimetres (LVX and LVX2 type 1), or in counts of ten
   millimetres (LVX2 type 0). */
uint8_t lidar_place_millimetres(int32_t x, uint32_t count, uint32_t datum,
                                uint32_t pulse_length, float *metres);

uint8_t lidar_place_ten_millimetres(int16_t x, uint32_t count, uint32_t datum,
                                    uint32_t pulse_length, float *metres);

/* Places the point of a rank, counted from 0 among all points of a Livox file. lvx2 is true for an
   LVX2 file and false for LVX; a file of the other form is refused. The file's own refusals come
   first; a point that is spherical or of floats, or none of that rank, is LIDAR_NOT_PLACEABLE. */
uint8_t lidar_place_in_file(const uint8_t *data, size_t data_len, bool lvx2, size_t rank,
                            uint32_t count, uint32_t datum, uint32_t pulse_length,
                            float *metres);

/* The pulses since the datum: count - datum, wrapping at 2^32, read as -2^31 to 2^31 - 1. */
int32_t lidar_pulses(uint32_t count, uint32_t datum);

/* How a stored reading is kept, which says what its three numbers are. */
enum lidar_stored {
    LIDAR_NO_READING = 0,
    LIDAR_MILLIMETRES = 1,      /* x, y, z in millimetres */
    LIDAR_TEN_MILLIMETRES = 2,  /* x, y, z in counts of ten millimetres */
    LIDAR_SPHERICAL = 3,        /* depth in millimetres, zenith angle and azimuth in hundredths of
                                   a degree */
    LIDAR_FLOATS = 4            /* x, y, z in metres, each by the 32-bit pattern of its float,
                                   0 to 4294967295 */
};

/* Tells the stored reading of a rank of a Livox file, whether it can be placed or not. *stored, which
   says what the three numbers are, and the numbers are always written; on a refusal they are 0. The
   file's own refusals come first; no point of that rank is LIDAR_NOT_PLACEABLE. */
uint8_t lidar_stored_reading(const uint8_t *data, size_t data_len, bool lvx2, size_t rank,
                             uint8_t *stored, int64_t *first, int64_t *second, int64_t *third);

#ifdef __cplusplus
}
#endif

#endif
