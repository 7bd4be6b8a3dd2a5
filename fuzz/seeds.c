/* Writes the inputs that the fuzzer starts from: files with what is asked of them after their last byte.
   From files that are named, from the lists of cases, and made here.

     seeds DIRECTORY CASES FILE.. */
#include <stdbool.h>
#include <stdio.h>
#include <stdlib.h>
#include <string.h>

#include "asked.h"
#include "random.h"

/* What is asked of a file. */
struct question {
    unsigned port, columns, beams, altitudes;
    uint32_t count, datum, pulse_length;
    uint64_t rank;
};

static const char *directory;
static unsigned written;
static uint64_t random_state = 1;

static void put(uint8_t *at, size_t len, uint64_t number)
{
    for (size_t i = 0; i < len; i++)
        at[i] = (uint8_t)(number >> 8 * i);
}

static void put_random(uint8_t *at, size_t len)
{
    for (size_t i = 0; i < len; i++)
        at[i] = (uint8_t)next(&random_state);
}

/* Ouster settings, with as many elevations as beams. The belt is that of 01's case. */
static struct question ask(unsigned port, unsigned columns, unsigned beams)
{
    return (struct question){port, columns, beams, beams, 704, 4294967000u, 250, written % 3};
}

/* A number that is not in the list goes to its last, which is as bad. */
static uint8_t place_of(unsigned beams)
{
    uint8_t place = 0;

    while (place < sizeof BEAMS_OF - 1 && BEAMS_OF[place] != beams)
        place++;
    return place;
}

static void write_seed(const uint8_t *bytes, size_t len, struct question question)
{
    uint8_t last[SETTINGS] = {0};
    char path[4096];

    /* All sides and several rooms in turn. */
    last[SIDES] = (uint8_t)(written % 32);
    last[BEYOND] = (uint8_t)(written * 7);
    put(last + PORT, 2, question.port);
    last[COLUMNS] = (uint8_t)question.columns;
    last[BEAMS] = place_of(question.beams);
    last[ALTITUDES] = (uint8_t)(1 + (question.altitudes > question.beams) -
                                (question.altitudes < question.beams));
    put(last + CANARY, 4, 0x3fc12345u + written);
    put(last + COUNT, 4, question.count);
    put(last + DATUM, 4, question.datum);
    put(last + PULSE_LENGTH, 4, question.pulse_length);
    put(last + RANK, 8, question.rank);
    snprintf(path, sizeof path, "%s/%04u", directory, written++);
    FILE *file = fopen(path, "wb");
    if (!file || fwrite(bytes, 1, len, file) != len || fwrite(last, 1, SETTINGS, file) != SETTINGS ||
        fclose(file) != 0) {
        perror(path);
        exit(1);
    }
}

static FILE *open_or_stop(const char *path, const char *mode)
{
    FILE *file = fopen(path, mode);

    if (!file) {
        perror(path);
        exit(1);
    }
    return file;
}

/* ---- from files */

static void from_file(const char *path)
{
    static uint8_t bytes[LONGEST];
    FILE *file = open_or_stop(path, "rb");
    size_t len = fread(bytes, 1, LONGEST, file);

    fclose(file);
    write_seed(bytes, len, ask(7502, 16, 64));
    write_seed(bytes, len, ask(0, 1, 16));
}

/* ---- from the lists of cases */

enum { MOST_NUMBERS = 8 };

static bool is(const char *call, const char *name) { return strcmp(call, name) == 0; }

static void ask_belt(struct question *question, const unsigned long long *numbers)
{
    question->count = (uint32_t)numbers[0];
    question->datum = (uint32_t)numbers[1];
    question->pulse_length = (uint32_t)numbers[2];
}

/* What a case asks, by its call and its numbers, of which the first is the length. */
static struct question question_of(const char *call, const unsigned long long *numbers, const uint8_t *bytes)
{
    struct question question = ask(7502, 1, 16);

    if (is(call, "os1-64"))
        return ask(7502, 16, 64);
    if (is(call, "os-128"))
        return ask(7502, 16, 128);
    if (is(call, "ouster")) {
        question = ask((unsigned)numbers[5], (unsigned)numbers[3], (unsigned)numbers[4]);
        question.altitudes = (unsigned)numbers[6];
    } else if (is(call, "payload")) {
        question.port = (unsigned)numbers[2];
        question.rank = numbers[3];
    } else if (is(call, "lvx-rank") || is(call, "lvx2-rank")) {
        question.rank = numbers[1];
    } else if (is(call, "place-lvx") || is(call, "place-lvx2")) {
        question.rank = numbers[1];
        ask_belt(&question, numbers + 2);
    } else if (is(call, "millimetres") || is(call, "ten-millimetres")) {
        memcpy(&question.rank, bytes, sizeof question.rank);
        ask_belt(&question, numbers + 1);
    }
    return question;
}

/* Puts the bytes of a word @PLACE=HEX. */
static void put_hex(uint8_t *bytes, const char *word)
{
    char *hex;
    size_t at = strtoul(word + 1, &hex, 10);
    unsigned byte;

    for (hex++; at < LONGEST && sscanf(hex, "%2x", &byte) == 1; hex += 2)
        bytes[at++] = (uint8_t)byte;
}

/* A line of a list: a name, a colon, the call, its numbers, and its bytes as @PLACE=HEX. */
static void from_case(char *line)
{
    static uint8_t bytes[LONGEST];
    unsigned long long numbers[MOST_NUMBERS] = {0};
    size_t k = 0;
    char *word = strchr(line, ':'), *call = word ? strtok(word + 1, " \n") : NULL;

    if (!call)
        return;
    memset(bytes, 0, sizeof bytes);
    while ((word = strtok(NULL, " \n"))) {
        if (*word == '@')
            put_hex(bytes, word);
        else if (k < MOST_NUMBERS)
            numbers[k++] = strtoull(word, NULL, 10);
    }
    if (numbers[0] <= LONGEST)
        write_seed(bytes, numbers[0], question_of(call, numbers, bytes));
}

static void from_cases(const char *path)
{
    static char line[1 << 18];
    FILE *file = open_or_stop(path, "r");

    while (fgets(line, sizeof line, file))
        from_case(line);
    fclose(file);
}

/* ---- made here */

static uint8_t file[LONGEST];

/* A capture's header. Its records' numbers are big-endian or not; by the magic, each of the four ways
   is taken by one reading alone. */
static size_t capture(unsigned way)
{
    static const uint32_t magics[4] = {0xa1b2c3d4, 0xd4c3b2a1, 0xa1b23c4d, 0x4d3cb2a1};

    memset(file, 0, 24);
    put(file, 4, magics[way % 4]);
    return 24;
}

static void put_u32(uint8_t *at, bool big_endian, uint32_t number)
{
    put(at, 4, big_endian ? __builtin_bswap32(number) : number);
}

/* As networks have it. */
static void put_u16(uint8_t *at, unsigned number) { put(at, 2, __builtin_bswap16((uint16_t)number)); }

/* Of a record's time, often where a second ends in either unit, or where the number does. */
static uint32_t any_time(void)
{
    static const uint32_t edges[6] = {0, 999999, 1000000, 999999999, 1000000000, UINT32_MAX};
    uint64_t any = next(&random_state);

    return any % 2 ? (uint32_t)(any >> 32) : edges[any / 2 % 6];
}

/* A datagram, and what stands around it in its record. */
struct datagram {
    bool tagged;
    unsigned options;   /* of the IP header, in words of four bytes */
    unsigned fragment;  /* the flags and the fragment offset */
    unsigned port;
    size_t payload, padding;
    int more;           /* what the UDP length tells beyond the true one */
};

/* A record with one datagram. Gives back where its payload stands. */
static uint8_t *put_datagram(size_t *len, bool big_endian, struct datagram datagram)
{
    size_t ip = datagram.tagged ? 18 : 14, udp = ip + 20 + 4 * datagram.options;
    size_t length = udp + 8 + datagram.payload + datagram.padding;
    uint8_t *record = file + *len + 16;

    memset(record - 16, 0, 16 + length);
    put_u32(record - 16, big_endian, any_time());
    put_u32(record - 12, big_endian, any_time());
    put_u32(record - 8, big_endian, (uint32_t)length);
    put_u32(record - 4, big_endian, (uint32_t)length);
    if (datagram.tagged)
        put_u16(record + 12, 0x8100);
    put_u16(record + ip - 2, 0x0800);
    record[ip] = (uint8_t)(0x45 + datagram.options);
    put_u16(record + ip + 6, datagram.fragment);
    record[ip + 9] = 17;
    put_u16(record + udp + 2, datagram.port);
    put_u16(record + udp + 4, (unsigned)((int)datagram.payload + 8 + datagram.more));
    *len += 16 + length;
    return record + udp + 8;
}

static void velodyne_packet(uint8_t *payload, uint8_t model)
{
    put_random(payload, 1206);
    for (size_t block = 0; block < 12; block++) {
        put(payload + 100 * block, 2, next(&random_state) % 8 ? 0xFFEE : 0xEEFF);
        put(payload + 100 * block + 2, 2, next(&random_state) % 36000);
    }
    payload[1205] = model;
}

static void velodyne_capture(unsigned way, bool big_endian, unsigned packets, uint8_t model)
{
    size_t len = capture(way);

    for (unsigned i = 0; i < packets; i++) {
        struct datagram datagram = {.tagged = i % 2, .port = 2368, .payload = 1206, .padding = 4 * (i % 3)};
        velodyne_packet(put_datagram(&len, big_endian, datagram), model);
    }
    write_seed(file, len, ask(2368, 1, 16));
}

/* Captures of each model, which each reading takes, one of thousands of points, and one of more than are
   kept. */
static void velodyne(void)
{
    static const uint8_t models[5] = {0x22, 0x28, 0x21, 0x35, 0x37};

    for (unsigned i = 0; i < 40; i++)
        velodyne_capture(i / 5, i / 20, 1 + i % 3, models[i % 5]);
    velodyne_capture(1, false, 20, 0x22);
    velodyne_capture(1, false, 51, 0x22);
}

static void ouster_capture(unsigned way, bool big_endian, unsigned packets, unsigned columns, unsigned beams)
{
    size_t len = capture(way), size = columns * (20 + 12 * beams);

    for (unsigned i = 0; i < packets; i++) {
        struct datagram datagram = {.tagged = i % 2, .port = 7502, .payload = size, .padding = 4 * i};
        put_random(put_datagram(&len, big_endian, datagram), size);
    }
    write_seed(file, len, ask(7502, columns, beams));
}

/* Captures for each number of beams, which each reading takes, and one of the most columns. */
static void ouster(void)
{
    for (unsigned i = 0; i < 32; i++)
        ouster_capture(i / 4, i / 16, 1 + i % 2, 1 + i % 3, BEAMS_OF[i % 4]);
    ouster_capture(1, false, 1, 64, 16);
}

/* Captures of a few small payloads and their times, which each reading takes, on two ports in turn. */
static void times(void)
{
    for (unsigned i = 0; i < 8; i++) {
        size_t len = capture(i);
        for (unsigned record = 0; record < 8; record++) {
            struct datagram datagram = {
                .tagged = record / 4,
                .port = record % 3 ? 2368 : 7502,
                .payload = record % 4,
            };
            put_random(put_datagram(&len, i / 4, datagram), datagram.payload);
        }
        write_seed(file, len, ask(7502, 1, 16));
    }
}

/* Captures of three bytes and fifteen of padding, which each reading takes, each record with another UDP
   length or another fragment field. The second half are tagged and have options. */
static void padded(void)
{
    static const int lengths[9] = {11, 0, 8, 9, 25, 26, 27, 60, 65535};
    static const unsigned fragments[8] = {0x4000, 0x8000, 0xc000, 0x2000, 0x0001, 0x0100, 0x00ff, 0x1fff};

    for (unsigned i = 0; i < 16; i++) {
        size_t len = capture(i);
        struct datagram datagram = {.tagged = i / 8, .options = i / 8, .port = 2368};
        datagram.payload = 3;
        datagram.padding = 15;
        for (unsigned record = 0; record < 9 + 8; record++) {
            datagram.more = record < 9 ? lengths[record] - 11 : 0;
            datagram.fragment = record < 9 ? 0 : fragments[record - 9];
            put_random(put_datagram(&len, i / 4 % 2, datagram), 3);
        }
        write_seed(file, len, ask(2368, 1, 16));
    }
}

/* Captures of one packet, which each reading takes, whose UDP length tells a byte less or a byte more. */
static void wrong_lengths(void)
{
    for (unsigned i = 0; i < 16; i++) {
        size_t len = capture(i);
        struct datagram datagram = {.port = 2368, .payload = 1206, .more = i / 8 ? 1 : -1};
        velodyne_packet(put_datagram(&len, i / 4 % 2, datagram), 0x22);
        write_seed(file, len, ask(2368, 1, 16));
    }
}

static void kitti(void)
{
    put_random(file, 160);
    put(file + 4, 4, 0x7fc00001);
    write_seed(file, 160, ask(0, 1, 16));
}

/* The header of a Livox file. Gives back where its frames start. */
static size_t livox_header(bool lvx2, unsigned devices)
{
    size_t base = lvx2 ? 28 + 41 * devices : 29 + 59 * devices;

    put_random(file, base);
    if (lvx2) {
        put(file, 4, 0x20200903);
        put(file + 8, 4, 28);
        file[24] = (uint8_t)devices;
    } else {
        memcpy(file, "livox_tech", 10);
        put(file + 20, 4, 0xAC0EA767);
        file[28] = (uint8_t)devices;
    }
    return base;
}

/* A package of a type at a place. Gives back where it ends. Its length may tell more than that. */
static size_t livox_package(size_t at, bool lvx2, uint8_t type, size_t length, size_t more)
{
    size_t header = lvx2 ? 11 : 27;

    put_random(file + at, header + length);
    file[at + (lvx2 ? 6 : 10)] = type;
    put(file + at + (lvx2 ? 7 : 21), lvx2 ? 4 : 2, length + more);
    return at + header + length;
}

/* A frame with a package of each type, known or not, and with bytes left over. The last body tells
   more, and so runs on over the next frame. */
static size_t livox_frame(size_t at, bool lvx2, unsigned first_type, size_t more)
{
    put_random(file + at, 24);
    at += 24;
    for (unsigned i = 0; i < 5; i++) {
        uint8_t type = (uint8_t)((first_type + i) % 5);
        at = livox_package(at, lvx2, type, next(&random_state) % 60, i == 4 ? more : 0);
    }
    return at;
}

/* Files of three frames, and then of 30. Of every second, bytes are told twice; the last frame has no next
   one, or one at the data's end. */
static void livox(void)
{
    for (unsigned i = 0; i < 18; i++) {
        bool lvx2 = i % 2, told_twice = i / 2 % 2, goes_on = i / 8;
        unsigned last = i < 16 ? 2 : 29;
        size_t base = livox_header(lvx2, i / 4 % 3), len = base;
        for (unsigned frame = 0; frame <= last; frame++) {
            size_t header = len;
            len = livox_frame(len, lvx2, i + frame, told_twice && frame < last ? 90 : 0);
            put(file + header + 8, 8, frame < last || goes_on ? len - base : 0);
        }
        write_seed(file, len, ask(0, 1, 16));
    }
}

/* An LVX2 file in which each frame's body runs on to the data's end: far more points than bytes. */
static void livox_many(void)
{
    enum { FRAMES = 200, FRAME = 24 + 11 };
    size_t base = livox_header(true, 0), len = base + FRAMES * FRAME;

    for (size_t at = base; at < len; at += FRAME) {
        put_random(file + at, 24);
        put(file + at + 8, 8, at + FRAME - base);
        livox_package(at + 24, true, 0, 0, len - at - FRAME);
    }
    write_seed(file, len, ask(0, 1, 16));
}

int main(int argc, char **argv)
{
    if (argc < 3) {
        fprintf(stderr, "usage: seeds DIRECTORY CASES FILE..\n");
        return 2;
    }
    directory = argv[1];
    from_cases(argv[2]);
    for (int i = 3; i < argc; i++)
        from_file(argv[i]);
    velodyne();
    ouster();
    times();
    padded();
    wrong_lengths();
    kitti();
    livox();
    livox_many();
    printf("%u seeds\n", written);
    return 0;
}
