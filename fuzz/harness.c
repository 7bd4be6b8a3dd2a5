/* Calls every C form on bytes that a fuzzer makes, and holds what include/lidar.h says of it, with every
   value held to the decoder.

   Each call runs in every build of the library. The shipped one gets its buffers between pages that trap,
   flush with one side or the other. The guided one, the same modules compiled with the coverage that the
   fuzzer follows and with the address sanitizer, gets them from the heap. Without GUIDED there is the
   shipped one alone. */
#include "harness.h"

#include <sys/mman.h>

#include "asked.h"
#include "bytes.h"
#include "decoder.h"
#include "lent.h"
#include "library.h"

struct build {
    struct library library;
    bool heap;
};

#define NAMED(call) .call = lidar_##call,
#ifdef GUIDED
/* Both are in one program, so the names of the shipped one stand behind shipped_. */
#define DECLARE(call) extern __typeof__(lidar_##call) shipped_lidar_##call;
CALLS(DECLARE)
#define SHIPPED(call) .call = shipped_lidar_##call,
static const struct build builds[] = {{{CALLS(NAMED)}, true}, {{CALLS(SHIPPED)}, false}};
#else
static const struct build builds[] = {{{CALLS(NAMED)}, false}};
#endif

enum {
    BUILDS = sizeof builds / sizeof *builds,
    RANKS = 6,
    ALTITUDES_BEYOND = 2
};

/* The reading of the calls that name none: the Rust's. */
static const bool usual_is_savefile = false;

enum reader {
    KITTI, KITTI_BITS, LVX, LVX_BITS, LVX2, LVX2_BITS, VELODYNE, VELODYNE_AS, PACKET, OUSTER, OUSTER_AS
};

struct run {
    const struct library *library;
    bool heap;
    uint8_t sides, beyond;
    uint32_t canary;
    uint64_t rank;
    struct belt belt;
    struct ouster ouster;
    bool savefile;
    const uint8_t *data;
    size_t len;
};

/* What the file means. Of two: by the form, LVX first, or by the reading, the Rust's first. */
static struct {
    struct cloud kitti, livox[2], velodyne[2], ouster[2], packet;
} meant;

static struct lent data, packet, numbers, kinds, altitudes;

/* ---- the readers */

static uint8_t call(const struct run *run, enum reader reader, const uint8_t *bytes, size_t len,
                    size_t numbers_len, size_t kinds_len, size_t *points, size_t *frames)
{
    const struct library *library = run->library;
    const struct ouster *ouster = &run->ouster;
    float *values = (float *)(void *)numbers.bytes;
    uint32_t *bits = (uint32_t *)(void *)numbers.bytes;
    const float *lent_altitudes = (const float *)(const void *)altitudes.bytes;

#define LENT(out) out, numbers_len, kinds.bytes, kinds_len, points, frames
    switch (reader) {
    case KITTI:
        return library->read_kitti(bytes, len, LENT(values));
    case KITTI_BITS:
        return library->read_kitti_bits(bytes, len, LENT(bits));
    case LVX:
        return library->read_lvx(bytes, len, LENT(values));
    case LVX_BITS:
        return library->read_lvx_bits(bytes, len, LENT(bits));
    case LVX2:
        return library->read_lvx2(bytes, len, LENT(values));
    case LVX2_BITS:
        return library->read_lvx2_bits(bytes, len, LENT(bits));
    case VELODYNE:
        return library->read_velodyne(bytes, len, LENT(values));
    case VELODYNE_AS:
        return library->read_velodyne_as(bytes, len, run->savefile, LENT(values));
    case PACKET:
        return library->decode_velodyne_packet(bytes, len, LENT(values));
    case OUSTER:
        return library->read_ouster(bytes, len, ouster->columns, ouster->beams, ouster->port,
                                    lent_altitudes, ouster->altitudes_len, LENT(values));
    default:
        return library->read_ouster_as(bytes, len, run->savefile, ouster->columns, ouster->beams,
                                       ouster->port, lent_altitudes, ouster->altitudes_len, LENT(values));
    }
#undef LENT
}

/* By pattern every bit is told; by value, which NaN is left open. */
static bool same_numbers(enum reader reader, const uint32_t *bits, size_t points)
{
    if (memcmp(numbers.bytes, bits, 12 * points) == 0)
        return true;
    if (reader == KITTI_BITS || reader == LVX_BITS || reader == LVX2_BITS)
        return false;
    for (size_t i = 0; i < 3 * points; i++) {
        uint32_t told = u32_at(numbers.bytes + 4 * i);
        if (told != bits[i] && !(is_nan(told) && is_nan(bits[i])))
            return false;
    }
    return true;
}

/* One call with so much room. */
static void hold_call(const struct run *run, enum reader reader, const uint8_t *bytes, size_t len,
                      const struct cloud *cloud, size_t numbers_len, size_t kinds_len)
{
    const size_t canary = (size_t)run->canary << 32 | 0x5a5a5a5a;
    size_t out[5] = {canary, canary, canary, canary, canary};
    bool room = cloud->points <= numbers_len / 3 && cloud->points <= kinds_len;
    uint8_t number = cloud->number == LIDAR_READ && !room ? LIDAR_NO_ROOM : cloud->number;
    size_t written = number == LIDAR_READ ? cloud->points : 0;

    lend(&numbers, 4 * numbers_len, run->heap, run->sides & 2, run->canary);
    lend(&kinds, kinds_len, run->heap, run->sides & 4, run->canary);
    HOLD(call(run, reader, bytes, len, numbers_len, kinds_len, &out[1], &out[3]) == number);
    HOLD(out[1] == (number == LIDAR_NO_ROOM ? cloud->points : written));
    HOLD(out[3] == (number == LIDAR_READ ? cloud->frames : 0));
    HOLD(out[0] == canary && out[2] == canary && out[4] == canary);
    HOLD(same_numbers(reader, cloud->bits, written));
    HOLD(memcmp(kinds.bytes, cloud->kinds, written) == 0);
    lent_kept(&numbers, 12 * written);
    lent_kept(&kinds, written);
}

/* A reader without room, with one number or one kind too few, and with enough. Of more points than
   MOST_POINTS, the count alone is held. */
static void hold_reader(const struct run *run, enum reader reader, const uint8_t *bytes, size_t len,
                        const struct cloud *cloud)
{
    size_t points = cloud->points;

    hold_call(run, reader, bytes, len, cloud, 0, 0);
    if (points > MOST_POINTS) {
        hold_call(run, reader, bytes, len, cloud, 3 * MOST_POINTS, MOST_POINTS);
        return;
    }
    if (points > 0) {
        hold_call(run, reader, bytes, len, cloud, 3 * points - 1, points);
        hold_call(run, reader, bytes, len, cloud, 3 * points, points - 1);
    }
    hold_call(run, reader, bytes, len, cloud, 3 * points + (run->beyond & 15), points + (run->beyond >> 4));
}

static void hold_file(const struct run *run, enum reader reader, const struct cloud *cloud)
{
    hold_reader(run, reader, run->data, run->len, cloud);
}

/* ---- placing */

/* A reading by itself. */
static void hold_placed(const struct run *run, uint8_t stored, int64_t x)
{
    const float before = (float)run->canary;
    float metres = before, distance = before;
    const struct belt *belt = &run->belt;
    struct reading reading = {stored, {x, 0, 0}};
    uint8_t number = decode_placing(&reading, belt, &distance);

    if (stored == LIDAR_MILLIMETRES)
        HOLD(run->library->place_millimetres((int32_t)x, belt->count, belt->datum, belt->pulse_length,
                                             &metres) == number);
    else
        HOLD(run->library->place_ten_millimetres((int16_t)x, belt->count, belt->datum, belt->pulse_length,
                                                 &metres) == number);
    HOLD(bits_of(metres) == bits_of(distance));
}

/* Where the window ends, wherever the belt has brought it. */
static void hold_edge(const struct run *run, int64_t micrometres)
{
    int64_t edge = (micrometres - (int64_t)pulses_of(&run->belt) * run->belt.pulse_length) / 1000;

    for (int64_t x = edge - 1; x <= edge + 1; x++)
        if (x == (int32_t)x)
            hold_placed(run, LIDAR_MILLIMETRES, x);
    for (int64_t x = edge / 10 - 1; x <= edge / 10 + 1; x++)
        if (x == (int16_t)x)
            hold_placed(run, LIDAR_TEN_MILLIMETRES, x);
}

static void hold_placing(const struct run *run)
{
    HOLD(run->library->pulses(run->belt.count, run->belt.datum) == pulses_of(&run->belt));
    hold_placed(run, LIDAR_MILLIMETRES, (int32_t)run->rank);
    hold_placed(run, LIDAR_TEN_MILLIMETRES, (int16_t)run->rank);
    hold_edge(run, 16000000);
    hold_edge(run, -16000000);
}

/* The stored reading of a rank, and its placing. */
static void hold_rank(const struct run *run, bool lvx2, uint64_t rank)
{
    const uint8_t canary = (uint8_t)run->canary;
    uint8_t stored[3] = {canary, canary, canary};
    int64_t out[5] = {7, 7, 7, 7, 7};
    const float before = (float)run->canary;
    float metres = before, distance = before;
    struct reading reading;
    uint8_t number = decode_stored(run->data, run->len, lvx2, rank, &reading);

    HOLD(run->library->stored_reading(run->data, run->len, lvx2, rank, &stored[1], &out[1], &out[2],
                                      &out[3]) == number);
    HOLD(stored[1] == reading.stored && memcmp(&out[1], reading.three, sizeof reading.three) == 0);
    HOLD(stored[0] == canary && stored[2] == canary && out[0] == 7 && out[4] == 7);

    if (number == LIDAR_READ)
        number = decode_placing(&reading, &run->belt, &distance);
    HOLD(run->library->place_in_file(run->data, run->len, lvx2, rank, run->belt.count, run->belt.datum,
                                     run->belt.pulse_length, &metres) == number);
    HOLD(bits_of(metres) == bits_of(distance));
}

static void hold_livox(const struct run *run, bool lvx2)
{
    const struct cloud *cloud = &meant.livox[lvx2];

    hold_file(run, lvx2 ? LVX2 : LVX, cloud);
    hold_file(run, lvx2 ? LVX2_BITS : LVX_BITS, cloud);
    for (size_t rank = 0; rank < RANKS && rank < cloud->points; rank++)
        hold_rank(run, lvx2, rank);
    if (cloud->points > 0) {
        hold_rank(run, lvx2, cloud->points - 1);
        hold_rank(run, lvx2, run->rank % cloud->points);
    }
    hold_rank(run, lvx2, cloud->points);
    hold_rank(run, lvx2, run->rank);
    hold_rank(run, lvx2, SIZE_MAX);
}

/* ---- captures */

/* What a call tells of a payload: each number in the middle, with canaries around it. */
struct told {
    size_t at[3], start[3], len[3];
    uint32_t seconds[3], fraction[3];
    uint8_t unit[3];
};

/* Before a call, each number but the place is a canary too: none of them 0, and the unit's not 1. */
static struct told untold(const struct run *run, size_t at)
{
    const size_t place = (size_t)run->canary << 32 | 0xa5a5a5a5;
    const uint32_t time = run->canary | 0x80000000u;
    const uint8_t unit = (uint8_t)(run->canary | 0x80);

    return (struct told){
        .at = {place, at, place},
        .start = {place, place, place},
        .len = {place, place, place},
        .seconds = {time, time, time},
        .fraction = {time, time, time},
        .unit = {unit, unit, unit},
    };
}

static void hold_told(const struct run *run, const struct told *told, size_t at,
                      const struct payload *payload)
{
    const struct told before = untold(run, at);

    HOLD(told->at[1] == at);
    HOLD(told->start[1] == payload->start && told->len[1] == payload->len);
    HOLD(told->seconds[1] == payload->seconds && told->fraction[1] == payload->fraction);
    HOLD(told->unit[1] == payload->unit);
#define KEPT(number) (told->number[0] == before.number[0] && told->number[2] == before.number[2])
    HOLD(KEPT(at) && KEPT(start) && KEPT(len) && KEPT(seconds) && KEPT(fraction) && KEPT(unit));
#undef KEPT
}

/* The numbers in the order in which every call takes them. */
#define TOLD(told) \
    &(told).start[1], &(told).len[1], &(told).seconds[1], &(told).fraction[1], &(told).unit[1]

/* One step, from a place. */
static bool hold_step(const struct run *run, uint16_t port, size_t *at, struct payload *payload)
{
    struct told told = untold(run, *at), usual = told;
    bool found = decode_payload(run->data, run->len, run->savefile, port, at, payload);

    HOLD(run->library->next_payload_as(run->data, run->len, run->savefile, port, &told.at[1],
                                       TOLD(told)) == found);
    hold_told(run, &told, *at, payload);
    if (run->savefile == usual_is_savefile) {
        HOLD(run->library->next_payload(run->data, run->len, port, &usual.at[1], TOLD(usual)) == found);
        hold_told(run, &usual, *at, payload);
    }
    return found;
}

/* The payload of a rank, which is empty if there is none. */
static void hold_payload(const struct run *run, uint16_t port, size_t rank, const struct payload *payload)
{
    uint8_t number = capture_number(run->data, run->len);
    struct told told = untold(run, 0), usual = told;

    HOLD(run->library->payload_place_as(run->data, run->len, run->savefile, port, rank, TOLD(told)) ==
         number);
    hold_told(run, &told, 0, payload);
    if (run->savefile == usual_is_savefile) {
        HOLD(run->library->payload_place(run->data, run->len, port, rank, TOLD(usual)) == number);
        hold_told(run, &usual, 0, payload);
    }
}

/* A payload as a packet, in a buffer of its own, so that nothing beyond it can be read. */
static void hold_packet(const struct run *run, const uint8_t *bytes, size_t len)
{
    static struct cloud cloud;

    decode_packet(bytes, len, &cloud);
    memcpy(lend(&packet, len, run->heap, run->sides & 8, run->canary), bytes, len);
    hold_reader(run, PACKET, packet.bytes, len, &cloud);
    HOLD(memcmp(packet.bytes, bytes, len) == 0);
}

/* All payloads by steps, and some by their ranks. */
static void hold_payloads(const struct run *run, uint16_t port)
{
    const struct payload none = {0};
    struct payload payload, last = none;
    size_t at = 0, met = 0;

    for (; hold_step(run, port, &at, &payload); met++) {
        if (met < RANKS || met == run->rank)
            hold_payload(run, port, met, &payload);
        if (port == VELODYNE_PORT)
            hold_packet(run, run->data + payload.start, payload.len);
        last = payload;
    }
    if (met > 0)
        hold_payload(run, port, met - 1, &last);
    hold_payload(run, port, met, &none);
    if (run->rank >= met)
        hold_payload(run, port, run->rank, &none);
    hold_payload(run, port, SIZE_MAX, &none);
}

static void hold_velodyne(const struct run *run)
{
    hold_file(run, VELODYNE_AS, &meant.velodyne[run->savefile]);
    if (run->savefile == usual_is_savefile)
        hold_file(run, VELODYNE, &meant.velodyne[run->savefile]);
}

static void hold_ouster(const struct run *run)
{
    size_t len = 4 * run->ouster.altitudes_len;

    memcpy(lend(&altitudes, len, run->heap, run->sides & 16, run->canary), run->ouster.altitudes, len);
    hold_file(run, OUSTER_AS, &meant.ouster[run->savefile]);
    if (run->savefile == usual_is_savefile)
        hold_file(run, OUSTER, &meant.ouster[run->savefile]);
    HOLD(memcmp(altitudes.bytes, run->ouster.altitudes, len) == 0);
    lent_kept(&altitudes, len);
}

/* Steps from places that no call gave. */
static void hold_places(const struct run *run)
{
    const size_t places[4] = {23, run->rank, run->len - run->rank, SIZE_MAX - run->rank};

    for (size_t i = 0; i < 4; i++) {
        struct payload payload;
        size_t at = places[i];
        hold_step(run, run->ouster.port, &at, &payload);
    }
}

static void hold_captures(struct run *run)
{
    for (int savefile = 0; savefile < 2; savefile++) {
        run->savefile = savefile;
        hold_velodyne(run);
        hold_ouster(run);
        hold_payloads(run, VELODYNE_PORT);
        hold_payloads(run, run->ouster.port);
        hold_payloads(run, 0);
        hold_places(run);
    }
}

/* ---- the input */

/* Once for all builds. */
static void decode(const struct run *run)
{
    decode_kitti(run->data, run->len, &meant.kitti);
    decode_packet(run->data, run->len, &meant.packet);
    for (int second = 0; second < 2; second++) {
        decode_livox(run->data, run->len, second, &meant.livox[second]);
        decode_velodyne(run->data, run->len, second, &meant.velodyne[second]);
        decode_ouster(run->data, run->len, second, &run->ouster, &meant.ouster[second]);
    }
}

/* Every call on the data, which means what was decoded. */
static void hold_data(struct run *run)
{
    hold_file(run, KITTI, &meant.kitti);
    hold_file(run, KITTI_BITS, &meant.kitti);
    hold_livox(run, false);
    hold_livox(run, true);
    hold_captures(run);
    hold_file(run, PACKET, &meant.packet);
}

static void hold_input(struct run *run, const uint8_t *input)
{
    memcpy(lend(&data, run->len, run->heap, run->sides & 1, run->canary), input, run->len);
    run->data = data.bytes;
    lent_writable(&data, false);
    hold_data(run);
    hold_placing(run);
    lent_writable(&data, true);
    HOLD(memcmp(data.bytes, input, run->len) == 0);
    lent_kept(&data, run->len);
}

/* Elevations of every sort, each beam another, with NaNs among them. */
static const uint32_t *some_altitudes(uint32_t canary)
{
    static uint32_t some[MOST_BEAMS + ALTITUDES_BEYOND];

    for (uint32_t beam = 0; beam < MOST_BEAMS + ALTITUDES_BEYOND; beam++)
        some[beam] = ((beam + 1) * 0x9E3779B9u ^ canary) | (beam % 8 == 7 ? 0x7fc00000u : 0);
    return some;
}

/* Good settings and bad ones, with as many elevations as beams, one fewer or one more. */
static struct ouster asked_ouster(const uint8_t *asked, uint32_t canary)
{
    const size_t far = (size_t)1 << 32;
    size_t beams = BEAMS_OF[asked[BEAMS] % 8], len = beams + asked[ALTITUDES] % 3;

    return (struct ouster){
        .columns = asked[COLUMNS] + (asked[FAR] & 1 ? far : 0),
        .beams = beams + (asked[FAR] & 2 ? far : 0),
        .port = u16_at(asked + PORT),
        .altitudes = some_altitudes(canary),
        .altitudes_len = len > 0 ? len - 1 : 0,
    };
}

static struct run asked_run(const uint8_t *asked)
{
    uint32_t canary = u32_at(asked + CANARY);

    return (struct run){
        .sides = asked[SIDES],
        .beyond = asked[BEYOND],
        .canary = canary,
        .rank = u64_at(asked + RANK),
        .belt = {u32_at(asked + COUNT), u32_at(asked + DATUM), u32_at(asked + PULSE_LENGTH)},
        .ouster = asked_ouster(asked, canary),
    };
}

int LLVMFuzzerTestOneInput(const uint8_t *input, size_t size)
{
    uint8_t asked[SETTINGS] = {0};

    if (size >= SETTINGS) {
        size -= SETTINGS;
        memcpy(asked, input + size, SETTINGS);
    }
    if (size > LONGEST)
        return 0;
    struct run run = asked_run(asked);
    run.data = input;
    run.len = size;
    decode(&run);
    for (size_t i = 0; i < BUILDS; i++) {
        run.library = &builds[i].library;
        run.heap = builds[i].heap;
        hold_input(&run, input);
    }
    return 0;
}

/* ---- what no input changes */

static void hold_models(const struct library *library)
{
    for (unsigned byte = 0; byte < 256; byte++)
        HOLD(library->detect_velodyne_model((uint8_t)byte) == model_of((uint8_t)byte));
}

/* os1_64 and os_128. */
static void hold_made_ready(const struct library *library, bool at_start, size_t beams)
{
    const struct ouster settings = ouster_made_ready(beams);
    size_t columns[3] = {3, 3, 3}, pixels[3] = {3, 3, 3};
    uint16_t port[3] = {3, 3, 3};

    lend(&altitudes, 4 * beams, false, at_start, 1);
    (beams == 64 ? library->os1_64 : library->os_128)(&columns[1], &pixels[1], &port[1],
                                                      (float *)(void *)altitudes.bytes);
    HOLD(columns[1] == settings.columns && columns[0] == 3 && columns[2] == 3);
    HOLD(pixels[1] == settings.beams && pixels[0] == 3 && pixels[2] == 3);
    HOLD(port[1] == settings.port && port[0] == 3 && port[2] == 3);
    HOLD(memcmp(altitudes.bytes, settings.altitudes, 4 * beams) == 0);
    lent_kept(&altitudes, 4 * beams);
}

/* The longest data and longer, all zeros. Its pages are there once they are read, and few are. */
static void hold_longest(const struct library *library)
{
    const size_t longest = 2147483647, lens[3] = {longest, longest + 1, SIZE_MAX};
    const uint8_t good[SETTINGS] = {[COLUMNS] = 1, [ALTITUDES] = 1}, bad[SETTINGS] = {0};
    void *zeros = mmap(NULL, longest + 1, PROT_READ, MAP_PRIVATE | MAP_ANONYMOUS | MAP_NORESERVE, -1, 0);

    HOLD(zeros != MAP_FAILED);
    for (size_t i = 0; i < 6; i++) {
        struct run run = asked_run(i % 2 ? bad : good);
        run.library = library;
        run.data = zeros;
        run.len = lens[i / 2];
        decode(&run);
        hold_data(&run);
    }
    HOLD(munmap(zeros, longest + 1) == 0);
}

int LLVMFuzzerInitialize(int *argc, char ***argv)
{
    (void)argc;
    (void)argv;
    lent_open(&data, LONGEST);
    lent_open(&packet, LONGEST);
    lent_open(&numbers, 12 * MOST_POINTS + 64);
    lent_open(&kinds, MOST_POINTS + 16);
    lent_open(&altitudes, 4 * (MOST_BEAMS + ALTITUDES_BEYOND));
    for (size_t i = 0; i < BUILDS; i++) {
        const struct library *library = &builds[i].library;
        hold_models(library);
        for (int at_start = 0; at_start < 2; at_start++) {
            hold_made_ready(library, at_start, 64);
            hold_made_ready(library, at_start, 128);
        }
        hold_longest(library);
    }
    return 0;
}
