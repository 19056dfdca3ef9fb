/* A walk over a file in memory, and a repair of one, by what they request, as of a file on a disk. */
#include <stdlib.h>
#include <string.h>

static void must(int holds, const char *what);

/* Reads what is requested into memory of its own, and reports it. */
static void read_part(const uint8_t *file, size_t length, hound_effect *effect) {
    size_t from = effect->place < length ? (size_t)effect->place : length;
    size_t count = length - from < effect->length ? length - from : effect->length;
    must(effect->kind == HOUND_READ && effect->length <= HOUND_EFFECT_BYTES, "a part that is read");
    memcpy(effect->bytes, file + from, count);
    effect->length = (uint32_t)count;
    effect->report = HOUND_DONE;
}

/* A call that takes the part of a walk. */
typedef int32_t walk_call(hound_walk *walk, hound_info_t *info);

static int32_t walked(walk_call *next, const uint8_t *file, size_t length, hound_info_t *info) {
    hound_walk walk = HOUND_WALK_BEGIN;
    uint64_t end = 0;
    int32_t code;
    while ((code = next(&walk, info)) == 1) {
        must(walk.effect.place >= end, "a part after those before it");
        end = walk.effect.place + walk.effect.length;
        read_part(file, length, &walk.effect);
    }
    must(code != 0 || info->data_start == end, "the data begin after the last part");
    return code;
}

/* What a repairer of this mode leaves of the file in the first `used` bytes, after which there is room for one: its
   length, or an error. */
static inline int64_t repaired(uint8_t *file, size_t used, uint32_t mode, hound_repair_t *found) {
    hound_repairer repairer;
    uint64_t length = used;
    int32_t code;
    hound_repairer_begin(used, mode, &repairer);
    while ((code = hound_repairer_next(&repairer, found)) == 1) {
        hound_effect *effect = &repairer.effect;
        uint64_t end = effect->place + effect->length;
        must(effect->kind == HOUND_READ || mode != HOUND_FIND_DAMAGE, "looking writes nothing");
        if (effect->kind == HOUND_READ) read_part(file, used, effect);
        if (effect->kind == HOUND_WRITE)
            must(end <= used + 1, "a place of the file"), memcpy(file + effect->place, effect->bytes, effect->length);
        if (effect->kind == HOUND_WRITE && end > length) length = end;
        effect->report = HOUND_DONE;
    }
    return code < 0 ? code : (int64_t)length;
}
