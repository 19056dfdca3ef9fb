/* Memory that is only written isn't initialized here: valgrind reports each of its bytes that a call reads, and each
   that a call says it has written and hasn't.   uninitialized [too: samples to be written aren't either] */
#include "hound.h"
#include <stdio.h>
#include <stdlib.h>
#include <string.h>

enum { ROOM = 4096, COUNT = 251 };

static void *fresh(size_t size) {
    void *found = malloc(size);
    if (!found) exit(2);
    return found;
}
static void must(int holds, const char *what) {
    if (!holds) {
        fprintf(stderr, "uninitialized: %s\n", what);
        exit(1);
    }
}

#define TRY(name, type)                                                                                              \
    static void try_##name(uint16_t bits, uint16_t bytes, uint16_t format, const type *samples) {                    \
        hound_spec spec = {44100, 1, bits, bytes, format};                                                           \
        uint8_t *file = fresh(ROOM), *containers = fresh(ROOM);                                                      \
        type *back = fresh(2 * COUNT * sizeof *back), *decoded = fresh(COUNT * sizeof *decoded);                     \
        hound_info_t *info = fresh(sizeof *info);                                                                    \
        hound_repair_t *found = fresh(sizeof *found);                                                                \
        int64_t used = hound_write_##name(&spec, samples, COUNT, file, ROOM);                                        \
        must(used > 0, "writing");                                                                                   \
        used = hound_append_##name(file, ROOM, (size_t)used, samples, COUNT);                                        \
        must(used > 0 && hound_info(file, (size_t)used, info) == 0 && info->samples == 2 * COUNT, "appending");      \
        must(!memcmp(&info->spec, &spec, sizeof spec) && info->data_start <= 68, "info");                            \
        must(hound_read_##name(file, (size_t)used, 0, back, 2 * COUNT) == 2 * COUNT, "reading");                     \
        must(!memcmp(back, samples, COUNT * sizeof *back), "the samples");                                           \
        must(!memcmp(back + COUNT, samples, COUNT * sizeof *back), "the samples that were appended");                \
        memset(file + info->data_start - 4, 0, 4);                                                                   \
        must(hound_repair(file, ROOM, (size_t)used, found) == used && found->state == HOUND_CUT_OFF, "repairing");   \
        must(found->frames == 2 * COUNT && found->left_over == 0 && found->spec.channels == 1, "what was repaired"); \
        must(hound_encode_##name(&spec, samples, COUNT, containers, ROOM) == COUNT * bytes, "encoding");             \
        must(hound_decode_##name(&spec, containers, COUNT * bytes, decoded, COUNT) == COUNT, "decoding");            \
        must(!memcmp(decoded, samples, COUNT * sizeof *decoded), "what is decoded");                                 \
        must(fwrite(file, 1, (size_t)used, stdout) == (size_t)used, "each byte of the file");                        \
        free(file), free(containers), free(back), free(decoded), free(info), free(found);                            \
    }
TRY(i16, int16_t)
TRY(i32, int32_t)
TRY(f32, float)

/* The effects of a checkpoint of a byte, after which there is a pad byte. */
static void try_recorder(void) {
    hound_spec spec = {44100, 1, 8, 1, HOUND_INT};
    hound_recorder *recorder = fresh(sizeof *recorder);
    int count = 0;
    must(hound_recorder_begin(&spec, recorder) == 0 && hound_recorder_write(recorder, 1) == 0, "recording");
    for (; hound_recorder_next(recorder) == 1; count++) {
        must(fwrite(&recorder->effect, 1, sizeof recorder->effect, stdout) == sizeof recorder->effect, "an effect");
        recorder->effect.report = HOUND_DONE;
        if (recorder->effect.kind == HOUND_WRITE_BLOCK) hound_recorder_checkpoint(recorder);
    }
    must(count == 6, "the effects");
    free(recorder);
}

int main(int argc, char **argv) {
    int16_t *shorts = fresh(COUNT * sizeof *shorts);
    int32_t *ints = fresh(COUNT * sizeof *ints);
    float *floats = fresh(COUNT * sizeof *floats);
    (void)argv;
    for (int i = argc > 1; i < COUNT; i++) floats[i] = (float)(ints[i] = shorts[i] = (int16_t)(i - 125));
    try_i16(8, 1, HOUND_INT, shorts);
    try_i16(16, 2, HOUND_INT, shorts);
    try_i32(8, 1, HOUND_INT, ints);
    try_i32(16, 2, HOUND_INT, ints);
    try_i32(24, 3, HOUND_INT, ints);
    try_i32(24, 4, HOUND_INT, ints);
    try_i32(32, 4, HOUND_INT, ints);
    try_f32(32, 4, HOUND_FLOAT, floats);
    try_recorder();
    free(shorts), free(ints), free(floats);
    return 0;
}
