/* Hostile bytes, with a page that can't be touched right after the file and after the memory for samples.
   What is returned is compared with what holds of every file.   hostile [COUNT] */
#include "hound.h"
#include <stdio.h>
#include <stdlib.h>
#include <string.h>
#include <sys/mman.h>
#include "walked.h"

static uint32_t state = 1;
static uint32_t some(uint32_t below) {
    state = state * 1664525u + 1013904223u;
    return (uint32_t)(((uint64_t)state * below) >> 32);
}
static uint8_t *guarded(void) { /* 64 KiB, and a page that can't be touched */
    uint8_t *p = mmap(NULL, 65536 + 4096, PROT_READ | PROT_WRITE, MAP_PRIVATE | MAP_ANONYMOUS, -1, 0);
    if (p == MAP_FAILED || mprotect(p + 65536, 4096, PROT_NONE)) exit(2);
    return p + 65536;
}
static void must(int holds, const char *what) {
    if (!holds) {
        fprintf(stderr, "hostile: %s\n", what);
        exit(1);
    }
}

int main(int argc, char **argv) {
    long count = argc > 1 ? atol(argv[1]) : 1000000, opened = 0;
    uint8_t *end = guarded(), *out_end = guarded(), base[400], copy[400];
    for (long i = 0; i < count; i++) {
        const uint16_t bits[] = {8, 16, 24, 24, 32, 32};
        const uint16_t bytes[] = {0, 2, 3, 4, 0, 0};
        uint32_t k = some(6), channels = 1 + some(4);
        int32_t samples[24];
        for (int j = 0; j < 24; j++) samples[j] = (int32_t)some(256) - 128;
        hound_spec spec = {44100, (uint16_t)channels, bits[k], bytes[k], k == 5};
        int64_t n = k == 5 ? hound_write_f32(&spec, (const float *)samples, channels * some(6), base, sizeof base)
                           : hound_write_i32(&spec, samples, channels * some(6), base, sizeof base);
        must(n >= 44 && n <= (int64_t)sizeof base, "a file");
        for (uint32_t j = some(4); j > 0; j--)
            base[some(some(3) ? 48 : (uint32_t)n)] = (uint8_t)(some(2) ? some(256) : some(5));
        size_t length = some(3) ? (size_t)n : some((uint32_t)n + 1);
        uint8_t *file = end - length;
        memcpy(file, base, length);
        hound_info_t info;
        int32_t code = hound_info(file, length, &info);
        must(code <= 0 && code >= HOUND_FRAME_LENGTH, "a code");
        int32_t kind = hound_kind(file, length);
        must(kind >= 0 && kind <= HOUND_KIND_FLOAT64, "a kind");
        must(code < 0 || !hound_kind_text(kind), "no name of what is read");
        hound_info_t parted;
        must(walked(hound_walk_next, file, length, &parted) == code, "the same by parts");
        must(code < 0 || (!memcmp(&parted.spec, &info.spec, sizeof info.spec) && parted.samples == info.samples
                          && parted.data_start == info.data_start), "the same head by parts");
        int32_t of_stream = walked(hound_walk_to_end, file, length, &parted);
        must(of_stream == (code == HOUND_DATA_LENGTH || code == HOUND_FRAME_LENGTH ? 0 : code), "a code of a stream");
        must(of_stream < 0 || (hound_whole_frames(&parted.spec, length) <= (int64_t)length && parted.samples == 0),
             "a stream");
        int64_t guessed = hound_guess_data(file, length);
        must(guessed == HOUND_NO_DATA_CHUNK || (guessed >= 20 && guessed <= (int64_t)length),
             "a place within the file");
        hound_walk any;
        for (size_t j = 0; j < sizeof any; j++) ((uint8_t *)&any)[j] = (uint8_t)some(some(2) ? 256 : 4);
        int32_t next = hound_walk_next(&any, &parted);
        must(next <= 1 && next >= HOUND_NOT_PERFORMED && (next != 1 || any.effect.length <= HOUND_EFFECT_BYTES),
             "a step of any walk");
        hound_repairer mender;
        hound_repair_t of_any;
        for (size_t j = 0; j < sizeof mender; j++) ((uint8_t *)&mender)[j] = (uint8_t)some(some(3) ? 4 : 256);
        next = hound_repairer_next(&mender, &of_any);
        must(next <= 1 && next >= HOUND_NOT_PERFORMED && (next != 1 || mender.effect.length <= HOUND_EFFECT_BYTES),
             "a step of any repairer");
        hound_recorder recorder;
        for (size_t j = 0; j < sizeof recorder; j++) ((uint8_t *)&recorder)[j] = (uint8_t)some(some(4) ? 3 : 256);
        if (some(2)) must(hound_recorder_write(&recorder, some(100)) <= 0, "a block of any recorder");
        else hound_recorder_checkpoint(&recorder);
        next = hound_recorder_next(&recorder);
        must(next <= 1 && next >= HOUND_NEEDS_OVERWRITE && (next == 1) == (recorder.effect.kind != HOUND_NOTHING),
             "an effect of any recorder");
        must(recorder.effect.kind != HOUND_WRITE_BLOCK
                 || recorder.effect.place == recorder.data_start + recorder.data_length,
             "the place of a block");
        size_t room = some(40);
        int16_t *shorts = (int16_t *)(void *)(out_end - 2 * room);
        int32_t *ints = (int32_t *)(void *)(out_end - 4 * room);
        uint64_t first = some(3) ? some(24) : ((uint64_t)state << some(33));
        int64_t a = hound_read_i16(file, length, first, shorts, room);
        int64_t b = hound_read_f32(file, length, first, (float *)(void *)ints, room);
        int64_t c = hound_read_i32(file, length, first, ints, room);
        must(a <= (int64_t)room && b <= (int64_t)room && c <= (int64_t)room, "no more than fits");
        if (code < 0) {
            must(a == code && b == code && c == code, "the same cause");
        } else {
            opened++;
            must(info.data_start <= length && info.samples % info.spec.channels == 0, "whole frames");
            must((b >= 0) + (c >= 0) <= 1 || room == 0 || first >= info.samples, "one format");
            if (c > 0) {
                int32_t again[40];
                uint64_t at = info.data_start + first * info.spec.bytes_per_sample;
                must(hound_decode_i32(&info.spec, file + at, length - at, again, (size_t)c) == c, "decoding");
                must(!memcmp(again, ints, 4 * (size_t)c), "decoded as read");
            }
            if (a > 0) for (int64_t j = 0; j < a; j++) must(c == a || c == HOUND_TRUNCATED, "both widths");
        }
        memcpy(copy, file, length);
        hound_repair_t damage, repaired, to_end;
        memset(&damage, 7, sizeof damage);
        int32_t looked = hound_find_damage(file, length, &damage);
        must(!memcmp(copy, file, length) && looked <= 0, "looking changes nothing");
        memcpy(base, file, length);
        int64_t mended = hound_repair(base, sizeof base, length, &repaired);
        must(looked == (mended < 0 ? mended : 0), "what is looked at is repaired");
        must(looked < 0
                 || (!memcmp(&damage.spec, &repaired.spec, sizeof damage.spec) && damage.frames == repaired.frames
                     && damage.left_over == repaired.left_over && damage.state == repaired.state
                     && damage.counted == repaired.counted),
             "the same damage");
        must(looked < 0 || damage.state == HOUND_CUT_OFF || !memcmp(copy, base, length), "what isn't cut off stays");
        must(looked < 0 || damage.state != HOUND_ALL_COUNTED || damage.counted == damage.frames, "all are counted");
        memcpy(base, file, length);
        must(hound_repair_to_end(base, sizeof base, length, &to_end) < 0 ? mended < 0 && !memcmp(copy, base, length)
                 : mended >= 0 && to_end.state != HOUND_HAS_CHUNKS_AFTER_DATA
                       && (repaired.state == HOUND_HAS_CHUNKS_AFTER_DATA || !memcmp(&repaired, &to_end, sizeof to_end)),
             "a repair to the end");
        uint32_t more = some(8);
        /* It fits only with nothing to add, or into a pad byte. */
        int64_t grown = hound_append_i32(file, length, length, samples, more);
        if (grown < 0) must(!memcmp(copy, file, length), "an error changes nothing");
        else must((size_t)grown <= length && hound_info(file, (size_t)grown, &info) == 0, "what was appended to");
    }
    printf("hostile: %ld files, %ld of them read\n", count, opened);
    return 0;
}
