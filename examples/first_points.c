/* Reads a lidar file and prints what it is, its first points, and of a capture its first and last time:

       first_points kitti|lvx|lvx2|velodyne|ouster FILE
       first_points velodyne|ouster FILE savefile

   A capture is read as lidar.rs reads it, or, with `savefile`, as capture tools write it. */
#include <inttypes.h>
#include <stdio.h>
#include <stdlib.h>
#include <string.h>
#include "lidar.h"

enum { SHOWN = 3, LONGEST = 2147483647 };

struct file {
    uint8_t *data;
    size_t len;
};

struct cloud {
    float *numbers;
    uint8_t *kinds;
    size_t points, frames;
};

enum kind { KITTI, LVX, LVX2, VELODYNE, OUSTER, KINDS };

static const char *const names[KINDS] = {"kitti", "lvx", "lvx2", "velodyne", "ouster"};

/* Reads the whole file, or a byte more than the longest data that a call takes. The pointer is not null
   even where the file is empty. */
static struct file load(const char *path) {
    struct file file = {NULL, 0};
    size_t room = 4096, read;
    FILE *in = fopen(path, "rb");
    uint8_t *data = in ? malloc(room) : NULL;

    while (data && file.len <= LONGEST && (read = fread(data + file.len, 1, room - file.len, in)) > 0) {
        file.len += read;
        if (file.len == room && file.len <= LONGEST) {
            uint8_t *more = realloc(data, room *= 2);
            if (!more)
                free(data);
            data = more;
        }
    }
    if (data && ferror(in)) {
        free(data);
        data = NULL;
    }
    if (in)
        fclose(in);
    file.data = data;
    return file;
}

/* One call of a reader. Each buffer has `room` points. */
static uint8_t call(enum kind kind, struct file file, bool savefile, struct cloud *cloud, size_t room) {
    size_t columns, beams;
    uint16_t port;
    float beam_altitudes[64];

    switch (kind) {
    case KITTI:
        return lidar_read_kitti(file.data, file.len, cloud->numbers, 3 * room, cloud->kinds, room,
                                &cloud->points, &cloud->frames);
    case LVX:
        return lidar_read_lvx(file.data, file.len, cloud->numbers, 3 * room, cloud->kinds, room,
                              &cloud->points, &cloud->frames);
    case LVX2:
        return lidar_read_lvx2(file.data, file.len, cloud->numbers, 3 * room, cloud->kinds, room,
                               &cloud->points, &cloud->frames);
    case VELODYNE:
        return lidar_read_velodyne_as(file.data, file.len, savefile, cloud->numbers, 3 * room,
                                      cloud->kinds, room, &cloud->points, &cloud->frames);
    default:
        lidar_os1_64(&columns, &beams, &port, beam_altitudes);
        return lidar_read_ouster_as(file.data, file.len, savefile, columns, beams, port,
                                    beam_altitudes, 64, cloud->numbers, 3 * room, cloud->kinds, room,
                                    &cloud->points, &cloud->frames);
    }
}

/* Asks how many points there are, makes room for them, and reads. */
static uint8_t read_cloud(enum kind kind, struct file file, bool savefile, struct cloud *cloud) {
    float no_number;
    uint8_t no_kind, number;
    size_t needed;

    cloud->numbers = &no_number;
    cloud->kinds = &no_kind;
    number = call(kind, file, savefile, cloud, 0);
    needed = cloud->points;
    cloud->numbers = NULL;
    cloud->kinds = NULL;
    if (number != LIDAR_NO_ROOM)
        return number;
    /* Livox points may outnumber the bytes by far, so that there may be no memory for them. */
    if (needed <= SIZE_MAX / (3 * sizeof(float))) {
        cloud->numbers = malloc(3 * sizeof(float) * needed);
        cloud->kinds = malloc(needed);
    }
    if (!cloud->numbers || !cloud->kinds)
        return LIDAR_NO_ROOM;
    return call(kind, file, savefile, cloud, needed);
}

/* A NaN without its sign, since by value it is left open which NaN arrives. */
static void print_number(const char *before, float number, const char *unit) {
    if (number != number)
        printf("%s nan %s", before, unit);
    else
        printf("%s %.3f %s", before, number, unit);
}

static void print_point(enum kind kind, uint8_t of, const float *numbers) {
    if (of == LIDAR_CARTESIAN) {
        print_number("  x", numbers[0], "m");
        print_number(", y", numbers[1], "m");
        print_number(", z", numbers[2], "m\n");
    } else {
        print_number("  range", numbers[0], "m");
        print_number(kind == LVX || kind == LVX2 ? ", zenith angle" : ", elevation", numbers[1],
                     "degrees");
        print_number(", azimuth", numbers[2], kind == OUSTER ? "radians\n" : "degrees\n");
    }
}

/* What a Livox file stores of its last point, and where that point stands once the belt has moved on
   by 400 pulses of 250 micrometres. */
static void print_stored(struct file file, bool lvx2, size_t rank) {
    uint8_t stored, number;
    int64_t first, second, third;
    float metres;
    const char *unit;

    if (lidar_stored_reading(file.data, file.len, lvx2, rank, &stored, &first, &second, &third))
        return;
    switch (stored) {
    case LIDAR_MILLIMETRES: unit = "mm"; break;
    case LIDAR_TEN_MILLIMETRES: unit = "counts of 10 mm"; break;
    case LIDAR_SPHERICAL: unit = "mm and hundredths of a degree"; break;
    case LIDAR_FLOATS: unit = "patterns of floats"; break;
    default: unit = "no reading"; break;
    }
    printf("last point stored as %lld, %lld, %lld %s; ", (long long)first, (long long)second,
           (long long)third, unit);
    number = lidar_place_in_file(file.data, file.len, lvx2, rank, 400, 0, 250, &metres);
    if (number == LIDAR_READ)
        printf("100 mm on it stands at %.3f m\n", metres);
    else
        printf("placing it: refused %d\n", number);
}

/* When a packet was captured, as its record states it. */
struct timestamp {
    uint32_t seconds, fraction;
    uint8_t unit;
};

/* Seconds since 1970, with all the digits of the unit. A fraction of a second or more has too many, and is
   printed as it is stored. */
static void print_time(struct timestamp time) {
    bool nanoseconds = time.unit == LIDAR_NANOSECONDS;
    uint32_t second = nanoseconds ? 1000000000 : 1000000;

    if (time.fraction < second)
        printf("%" PRIu32 ".%0*" PRIu32, time.seconds, nanoseconds ? 9 : 6, time.fraction);
    else
        printf("%" PRIu32 " and %" PRIu32 " %s", time.seconds, time.fraction,
               nanoseconds ? "nanoseconds" : "microseconds");
}

/* The packets of a capture: how many, and the model that the first one names, if they are Velodyne's, and
   the times of the first and the last. */
static void print_packets(enum kind kind, struct file file, bool savefile) {
    uint16_t port = kind == VELODYNE ? 2368 : 7502;
    size_t at = 0, start, len, packets = 0;
    struct timestamp time, first = {0, 0, LIDAR_MICROSECONDS}, last = first;
    const char *model = "none";

    while (lidar_next_payload_as(file.data, file.len, savefile, port, &at, &start, &len, &time.seconds,
                                 &time.fraction, &time.unit)) {
        /* Kept, since the call that finds no more packets writes zeros. */
        last = time;
        if (packets++ > 0)
            continue;
        first = time;
        if (len >= 1206)
            switch (lidar_detect_velodyne_model(file.data[start + 1205])) {
            case LIDAR_VLP16: model = "VLP-16"; break;
            case LIDAR_HDL32E: model = "HDL-32E"; break;
            case LIDAR_VLP32C: model = "VLP-32C"; break;
            default: model = "unknown"; break;
            }
    }
    if (kind == VELODYNE)
        printf("packets %zu, model %s\n", packets, model);
    printf("times ");
    print_time(first);
    printf(" to ");
    print_time(last);
    printf("\n");
}

int main(int argc, char **argv) {
    struct file file;
    struct cloud cloud;
    uint8_t number;
    size_t i;
    int kind = 0;
    bool savefile = argc == 4 && strcmp(argv[3], "savefile") == 0;

    while (argc >= 3 && kind < KINDS && strcmp(argv[1], names[kind]))
        kind++;
    if (argc < 3 || kind == KINDS || argc > 3 + (savefile && kind >= VELODYNE)) {
        fputs("usage: first_points kitti|lvx|lvx2|velodyne|ouster FILE\n"
              "       first_points velodyne|ouster FILE savefile\n",
              stderr);
        return 2;
    }
    file = load(argv[2]);
    if (!file.data) {
        fprintf(stderr, "first_points: %s cannot be read\n", argv[2]);
        return 2;
    }
    printf("%s: %s, %zu bytes\n", argv[2], names[kind], file.len);
    number = read_cloud(kind, file, savefile, &cloud);
    if (number == LIDAR_READ) {
        printf("points %zu, frames %zu\n", cloud.points, cloud.frames);
        for (i = 0; i < cloud.points && i < SHOWN; i++)
            print_point(kind, cloud.kinds[i], cloud.numbers + 3 * i);
        if (kind == VELODYNE || kind == OUSTER)
            print_packets(kind, file, savefile);
        if ((kind == LVX || kind == LVX2) && cloud.points > 0)
            print_stored(file, kind == LVX2, cloud.points - 1);
    } else if (number == LIDAR_NO_ROOM) {
        printf("there is no memory for %zu points\n", cloud.points);
    } else {
        printf("refused %d\n", number);
    }
    free(cloud.numbers);
    free(cloud.kinds);
    free(file.data);
    return number != LIDAR_READ;
}
