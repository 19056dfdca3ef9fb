/* Answers the requests of requests.py, a line each: `memory SIZE HEX` says what is in memory, in its front; `CALL
   ARGUMENT..` makes a call over a copy of that, where @N is the address of its byte N, and #N a number of 16 bits. The
   calls `walk_next` and `walk_to_end` are all such calls over a file. The answer is what the call returned, and a sum
   of all memory after it.   answer < REQUESTS */
#include "hound.h"
#include "walked.h"
#include <stdio.h>

enum { ROOM = 1 << 16, LINE = 3 * ROOM };
static uint8_t before[ROOM];
static uint64_t memory[ROOM / 8]; /* aligned for each type */

static void must(int holds, const char *what) {
    if (!holds) exit((fprintf(stderr, "answer: not so: %s\n", what), 2));
}

static int digit(char c) { return c <= '9' ? c - '0' : c - 'a' + 10; }

static int64_t call(const char *name, const uint64_t *a) {
#define AT(type, i) ((type *)(uintptr_t)a[i])
    if (!strcmp(name, "info")) return hound_info(AT(uint8_t, 0), a[1], AT(hound_info_t, 2));
    if (!strcmp(name, "walk_next")) return walked(hound_walk_next, AT(uint8_t, 0), a[1], AT(hound_info_t, 2));
    if (!strcmp(name, "walk_to_end")) return walked(hound_walk_to_end, AT(uint8_t, 0), a[1], AT(hound_info_t, 2));
    if (!strcmp(name, "whole_frames")) return hound_whole_frames(AT(hound_spec, 0), a[1]);
    if (!strcmp(name, "guess_data")) return hound_guess_data(AT(uint8_t, 0), a[1]);
    if (!strcmp(name, "kind")) return hound_kind(AT(uint8_t, 0), a[1]);
    if (!strcmp(name, "version")) return hound_version();
    if (!strcmp(name, "find_damage")) return hound_find_damage(AT(uint8_t, 0), a[1], AT(hound_repair_t, 2));
    if (!strcmp(name, "header")) return hound_header(AT(hound_spec, 0), a[1], AT(uint8_t, 2), a[3]);
    if (!strcmp(name, "sizes")) return hound_sizes(AT(hound_spec, 0), a[1], a[2], AT(uint8_t, 3), a[4]);
    if (!strcmp(name, "to_f32")) return hound_to_f32(AT(hound_spec, 0), AT(uint8_t, 1), a[2], AT(float, 3), a[4]);
    if (!strcmp(name, "from_f32"))
        return hound_from_f32(AT(hound_spec, 0), AT(float, 1), a[2], AT(uint8_t, 3), a[4], AT(uint64_t, 5));
    if (!strcmp(name, "to_f64")) return hound_to_f64(AT(hound_spec, 0), AT(uint8_t, 1), a[2], AT(double, 3), a[4]);
    if (!strcmp(name, "from_f64"))
        return hound_from_f64(AT(hound_spec, 0), AT(double, 1), a[2], AT(uint8_t, 3), a[4], AT(uint64_t, 5));
    if (!strcmp(name, "dither_f32"))
        return hound_dither_f32(AT(hound_spec, 0), AT(float, 1), a[2], AT(uint64_t, 3), AT(uint8_t, 4), a[5],
                                AT(uint64_t, 6));
    if (!strcmp(name, "dither_f64"))
        return hound_dither_f64(AT(hound_spec, 0), AT(double, 1), a[2], AT(uint64_t, 3), AT(uint8_t, 4), a[5],
                                AT(uint64_t, 6));
    if (!strcmp(name, "f32_to_f64")) return hound_f32_to_f64(AT(float, 0), a[1], AT(double, 2), a[3]);
    if (!strcmp(name, "f64_to_f32")) return hound_f64_to_f32(AT(double, 0), a[1], AT(float, 2), a[3], AT(uint64_t, 4));
    if (!strcmp(name, "container_8")) return hound_container_8((int32_t)a[0]);
    if (!strcmp(name, "container_16")) return hound_container_16((int32_t)a[0]);
    if (!strcmp(name, "container_24")) return hound_container_24((int32_t)a[0]);
    if (!strcmp(name, "container_32")) return hound_container_32((int32_t)a[0]);
    if (!strcmp(name, "value_8")) return hound_value_8((uint32_t)a[0]);
    if (!strcmp(name, "value_16")) return hound_value_16((uint32_t)a[0]);
    if (!strcmp(name, "value_24")) return hound_value_24((uint32_t)a[0]);
    if (!strcmp(name, "value_32")) return hound_value_32((uint32_t)a[0]);
    if (!strcmp(name, "beginning")) return hound_beginning(AT(hound_spec, 0), (uint32_t)a[1], AT(hound_effect, 2));
    if (!strcmp(name, "recorder_begin")) return hound_recorder_begin(AT(hound_spec, 0), AT(hound_recorder, 1));
    if (!strcmp(name, "recorder_resume"))
        return hound_recorder_resume(AT(hound_repair_t, 0), (uint32_t)a[1], AT(hound_recorder, 2));
    if (!strcmp(name, "recorder_write")) return hound_recorder_write(AT(hound_recorder, 0), a[1]);
    if (!strcmp(name, "recorder_checkpoint")) return hound_recorder_checkpoint(AT(hound_recorder, 0)), 0;
    if (!strcmp(name, "recorder_frames_left")) return hound_recorder_frames_left(AT(hound_recorder, 0));
    if (!strcmp(name, "recorder_next")) return hound_recorder_next(AT(hound_recorder, 0));
    if (!strcmp(name, "repairer")) return repaired(AT(uint8_t, 0), a[1], (uint32_t)a[2], AT(hound_repair_t, 3));
    if (!strcmp(name, "repairer_next")) return hound_repairer_next(AT(hound_repairer, 0), AT(hound_repair_t, 1));
    if (!strcmp(name, "size")) return hound_size(AT(hound_spec, 0), a[1]);
    if (!strcmp(name, "repair")) return hound_repair(AT(uint8_t, 0), a[1], a[2], AT(hound_repair_t, 3));
    if (!strcmp(name, "repair_to_end")) return hound_repair_to_end(AT(uint8_t, 0), a[1], a[2], AT(hound_repair_t, 3));
#define CONTAINERS(suffix, type)                                                                  \
    if (!strcmp(name, "decode_" #suffix))                                                         \
        return hound_decode_##suffix(AT(hound_spec, 0), AT(uint8_t, 1), a[2], AT(type, 3), a[4]); \
    if (!strcmp(name, "encode_" #suffix))                                                         \
        return hound_encode_##suffix(AT(hound_spec, 0), AT(type, 1), a[2], AT(uint8_t, 3), a[4]);
#define CALLS(suffix, type)                                                                      \
    CONTAINERS(suffix, type)                                                                     \
    if (!strcmp(name, "read_" #suffix))                                                          \
        return hound_read_##suffix(AT(uint8_t, 0), a[1], a[2], AT(type, 3), a[4]);               \
    if (!strcmp(name, "write_" #suffix))                                                         \
        return hound_write_##suffix(AT(hound_spec, 0), AT(type, 1), a[2], AT(uint8_t, 3), a[4]); \
    if (!strcmp(name, "append_" #suffix))                                                        \
        return hound_append_##suffix(AT(uint8_t, 0), a[1], a[2], AT(type, 3), a[4]);
    CONTAINERS(i8, int8_t)
    CALLS(i16, int16_t)
    CALLS(i32, int32_t)
    CALLS(f32, float)
    fprintf(stderr, "answer: there is no call %s\n", name);
    exit(2);
}

int main(void) {
    static char line[LINE];
    size_t size = 0;
    while (fgets(line, LINE, stdin)) {
        char *name = strtok(line, " \n"), *word;
        if (!strcmp(name, "memory")) {
            size = strtoull(strtok(NULL, " \n"), NULL, 10);
            memset(before, 0x5a, size);
            const char *hex = strtok(NULL, " \n");
            for (size_t i = 0; hex[2 * i]; i++) before[i] = (uint8_t)(digit(hex[2 * i]) << 4 | digit(hex[2 * i + 1]));
            continue;
        }
        uint64_t arguments[7] = {0};
        for (int i = 0; i < 7 && (word = strtok(NULL, " \n")); i++)
            arguments[i] =
                (*word == '@' ? (uintptr_t)memory : 0) + strtoull(word + (*word == '@' || *word == '#'), NULL, 10);
        memcpy(memory, before, size);
        int64_t result = call(name, arguments);
        uint32_t sum = 2166136261u; /* FNV-1a */
        for (size_t i = 0; i < size; i++) sum = (sum ^ ((uint8_t *)memory)[i]) * 16777619u;
        printf("%lld %08x\n", (long long)result, sum);
    }
    return 0;
}
