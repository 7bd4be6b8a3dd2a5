/* The calls of include/lidar.h, of either build of the library: the one that is shipped, and the same
   modules compiled once more with what a fuzzer and the address sanitizer need. */
#ifndef LIBRARY_H
#define LIBRARY_H

#include "lidar.h"

#define CALLS(CALL)                                                                                    \
    CALL(read_kitti) CALL(read_kitti_bits) CALL(read_lvx) CALL(read_lvx2) CALL(read_lvx_bits)          \
    CALL(read_lvx2_bits) CALL(read_velodyne_as) CALL(read_velodyne) CALL(decode_velodyne_packet)       \
    CALL(detect_velodyne_model) CALL(read_ouster_as) CALL(read_ouster) CALL(os1_64) CALL(os_128)       \
    CALL(payload_place_as) CALL(payload_place) CALL(next_payload_as) CALL(next_payload)                \
    CALL(place_millimetres) CALL(place_ten_millimetres) CALL(place_in_file) CALL(pulses)               \
    CALL(stored_reading)

#define POINTER(call) __typeof__(lidar_##call) *call;
struct library {
    CALLS(POINTER)
};
#undef POINTER

#endif
