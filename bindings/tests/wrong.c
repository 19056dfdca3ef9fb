/* Wrong libraries, for scripts/try_bindings.sh: linked between calls.c and hound_c (by the linker's --wrap), this does
   what hound_c does, but for the fault that the environment variable FAULT names. calls.c must find each of them. */
#include "hound.h"
#include <stdlib.h>
#include <string.h>

static int has(const char *fault) {
    const char *name = getenv("FAULT");
    return name && !strcmp(name, fault);
}

#define REAL(result, name, parameters)     \
    result __real_hound_##name parameters; \
    result __wrap_hound_##name parameters; \
    result __wrap_hound_##name parameters
static void report(hound_spec *spec) {
    if (has("floats are format 7") && spec->sample_format) spec->sample_format = 7;
    if (has("no width")) spec->bytes_per_sample = 0;
}

REAL(int32_t, info, (const uint8_t *file, size_t length, hound_info_t *info)) {
    int32_t code = __real_hound_info(file, length, info);
    if (code == 0) report(&info->spec);
    if (code < 0 && has("info writes at an error")) info->samples = 0;
    return code;
}

REAL(int32_t, version, (void)) { return __real_hound_version() + has("another version"); }

REAL(int32_t, kind, (const uint8_t *file, size_t length)) {
    int32_t kind = __real_hound_kind(file, length);
    if (kind == HOUND_KIND_FLOAT64 && has("floats of 64 bits are floats")) return 3;
    if (kind == 85 && has("MP3 in a WAV file isn't known")) return HOUND_KIND_UNKNOWN;
    return kind == HOUND_KIND_RIFX && has("RIFX is RF64") ? HOUND_KIND_RF64 : kind;
}

REAL(int64_t, repair, (uint8_t *file, size_t capacity, size_t used, hound_repair_t *found)) {
    if (has("repair takes at most the capacity") && used > capacity) used = capacity;
    int64_t n = __real_hound_repair(file, capacity, used, found);
    if (n >= 0) report(&found->spec);
    if (n < 0 && has("repair reports at an error")) found->state = HOUND_WHOLE;
    return n == (int64_t)capacity && has("repair that fills") ? INT64_MAX : n;
}

REAL(int64_t, repair_to_end, (uint8_t *file, size_t capacity, size_t used, hound_repair_t *found)) {
    if (has("to the end it looks for chunks")) return __real_hound_repair(file, capacity, used, found);
    hound_repair_t before = *found;
    int64_t n = __real_hound_repair_to_end(file, capacity, used, found);
    if (n >= 0 && has("to the end it reports nothing")) *found = before;
    if (n < 0 && has("to the end it reports at an error")) found->state = HOUND_WHOLE;
    if (n > (int64_t)used && has("to the end it needs no pad byte")) return (int64_t)used;
    return n;
}

REAL(int32_t, find_damage, (const uint8_t *file, size_t length, hound_repair_t *found)) {
    int32_t code = __real_hound_find_damage(file, length, found);
    if (code == 0) report(&found->spec);
    if (code == 0 && has("looking finds no torn bytes")) found->left_over = 0;
    if (code < 0 && has("looking reports at an error")) found->state = HOUND_WHOLE;
    return code;
}

REAL(int32_t, walk_next, (hound_walk *walk, hound_info_t *info)) {
    int32_t code = __real_hound_walk_next(walk, info);
    if (code == 1 && has("walk asks for a byte more")) walk->effect.length++;
    if (code == 1 && has("walk skips a byte more")) walk->effect.place++;
    if (code == 0) report(&info->spec);
    if (code == 0 && has("walk counts a sample more")) info->samples++;
    if (code < 0 && has("walk writes at an error")) info->samples = 0;
    return code;
}

REAL(int64_t, header, (const hound_spec *spec, uint64_t samples, uint8_t *out, size_t capacity)) {
    int64_t n = __real_hound_header(spec, samples, out, capacity);
    if (n > 0 && has("header without a RIFF size")) memset(out + 4, 0, 4);
    return n == HOUND_UNFINISHED_FRAME && has("header of torn frames")
               ? __real_hound_header(spec, samples - 1, out, capacity)
               : n;
}

REAL(int64_t, sizes, (const hound_spec *spec, uint64_t data_start, uint64_t samples, uint8_t *out, size_t capacity)) {
    int64_t n = __real_hound_sizes(spec, data_start, samples, out, capacity);
    uint8_t first[4];
    if (n > 0 && has("sizes in the other order"))
        memcpy(first, out, 4), memcpy(out, out + 4, 4), memcpy(out + 4, first, 4);
    return n > 0 && n % 2 == 0 && has("sizes without a pad byte") ? n - 1 : n;
}

REAL(int64_t, to_f32, (const hound_spec *spec, const uint8_t *bytes, size_t length, float *out, size_t count)) {
    int64_t n = __real_hound_to_f32(spec, bytes, length, out, count);
    float factor = n > 0 ? (float)(1u << (spec->bits_per_sample - 1)) / 32768 : 1;
    for (int64_t i = 0; i < n; i++) if (has("floats of 16 bits alone")) out[i] *= factor;
    return n;
}

REAL(int64_t, from_f32, (const hound_spec *spec, const float *samples, size_t count, uint8_t *out, size_t capacity,
                         uint64_t *clipped)) {
    int64_t n = __real_hound_from_f32(spec, samples, count, out, capacity, clipped);
    if (n >= 0 && has("no clipped sample")) *clipped = 0;
    if (n > 0 && has("halves upwards"))
        for (size_t i = 0; i < count; i++) if (samples[i] == 2.5f / 32768) out[(size_t)n / count * i] = 3;
    return n;
}

REAL(int64_t, to_f64, (const hound_spec *spec, const uint8_t *bytes, size_t length, double *out, size_t count)) {
    int64_t n = __real_hound_to_f64(spec, bytes, length, out, count);
    for (int64_t i = 0; i < n; i++) if (has("doubles are floats")) out[i] = (float)out[i];
    return n;
}

REAL(int64_t, from_f64, (const hound_spec *spec, const double *samples, size_t count, uint8_t *out, size_t capacity,
                         uint64_t *clipped)) {
    int64_t n = __real_hound_from_f64(spec, samples, count, out, capacity, clipped);
    if (n >= 0 && has("no clipped double")) *clipped = 0;
    if (n > 0 && has("doubles rounded twice"))
        for (size_t i = 0; i < count; i++) if ((float)samples[i] == 2.5f / 32768) out[(size_t)n / count * i] = 2;
    return n;
}

REAL(int64_t, dither_f32, (const hound_spec *spec, const float *samples, size_t count, uint64_t *state, uint8_t *out,
                           size_t capacity, uint64_t *clipped)) {
    uint64_t seed = *state;
    int64_t n = __real_hound_dither_f32(spec, samples, count, state, out, capacity, clipped);
    if (n >= 0 && has("each block has the same noise")) *state = seed;
    return n;
}

REAL(int64_t, dither_f64, (const hound_spec *spec, const double *samples, size_t count, uint64_t *state, uint8_t *out,
                           size_t capacity, uint64_t *clipped)) {
    int64_t n = __real_hound_dither_f64(spec, samples, count, state, out, capacity, clipped);
    int has_noise = n < 0 || !has("doubles without noise");
    return has_noise ? n : __real_hound_from_f64(spec, samples, count, out, capacity, clipped);
}

REAL(int64_t, f32_to_f64, (const float *samples, size_t count, double *out, size_t capacity)) {
    int64_t n = __real_hound_f32_to_f64(samples, count, out, capacity);
    for (int64_t i = 0; i < n; i++) if (has("small floats are zeros") && samples[i] < 1e-38f) out[i] = 0;
    return n;
}

REAL(int64_t, f64_to_f32, (const double *samples, size_t count, float *out, size_t capacity, uint64_t *infinite)) {
    int64_t n = __real_hound_f64_to_f32(samples, count, out, capacity, infinite);
    for (int64_t i = 0; i < n; i++) *infinite += has("infinities count as infinite") && samples[i] > 1e308;
    return n;
}

REAL(int64_t, container_8, (int32_t value)) {
    return has("the container of 8 bits is signed") && value < 0 ? (uint8_t)value : __real_hound_container_8(value);
}

REAL(int64_t, container_16, (int32_t value)) {
    return has("the container of 16 bits has four bytes") ? (uint32_t)value : __real_hound_container_16(value);
}

REAL(int64_t, container_24, (int32_t value)) {
    return has("the container of 24 bits isn't checked") ? value & 0xffffff : __real_hound_container_24(value);
}

REAL(int64_t, container_32, (int32_t value)) {
    return has("the container of 32 bits has a sign") ? value : __real_hound_container_32(value);
}

REAL(int32_t, value_8, (uint32_t container)) {
    return has("8 bits signed") ? (int8_t)container : __real_hound_value_8(container);
}

REAL(int32_t, value_16, (uint32_t container)) {
    return has("16 bits unsigned") ? (uint16_t)container : __real_hound_value_16(container);
}

REAL(int32_t, value_24, (uint32_t container)) {
    return has("24 bits of the fourth byte") ? (int32_t)container : __real_hound_value_24(container);
}

REAL(int32_t, value_32, (uint32_t container)) {
    return has("32 bits shifted") ? (int32_t)(container & 0xffffff00) : __real_hound_value_32(container);
}

REAL(int64_t, size, (const hound_spec *spec, uint64_t samples)) {
    int64_t n = __real_hound_size(spec, samples);
    if (n == HOUND_UNFINISHED_FRAME && has("size of torn frames")) return __real_hound_size(spec, samples - 1);
    return n == HOUND_TOO_LONG && has("size past 32 bits") ? (int64_t)(44 + 2 * samples) : n;
}

REAL(int32_t, recorder_resume, (const hound_repair_t *found, uint32_t allowed, hound_recorder *recorder)) {
    if (has("chunks are overwritten")) allowed |= HOUND_OVERWRITE;
    if (has("what was cut off is mended")) allowed |= HOUND_MEND;
    hound_repair_t whole = *found;
    whole.data_length -= whole.data_length % (2 * found->spec.channels);
    int is_torn = allowed == HOUND_MEND && whole.data_length != found->data_length;
    int32_t code = __real_hound_recorder_resume(is_torn && has("a counted part of a frame is cut off") ? &whole : found,
                                                allowed, recorder);
    if (code == 0 && has("appending from the first sample")) recorder->data_length = 0;
    if (code == 0 && has("what follows stays")) recorder->has_rest = 0;
    return code;
}

REAL(int32_t, beginning, (const hound_spec *spec, uint32_t number, hound_effect *effect)) {
    uint32_t late = has("a file is emptied before its folder is synced") && number < 2 ? 1 - number : number;
    int32_t code = __real_hound_beginning(spec, late, effect);
    if (code == 1 && effect->kind == HOUND_WRITE && effect->place == 0 && has("a new header counts a RIFF size"))
        effect->bytes[4] = 36;
    return code;
}

REAL(int32_t, recorder_write, (hound_recorder *recorder, uint64_t samples)) {
    if (has("a torn frame is written")) recorder->channels = 1;
    int32_t code = __real_hound_recorder_write(recorder, samples);
    if (has("a block that is given up stays")) recorder->has_rest = 0;
    return code;
}

REAL(int32_t, recorder_next, (hound_recorder *recorder)) {
    uint16_t *report = &recorder->effect.report;
    if (recorder->effect.kind != HOUND_NOTHING && *report == HOUND_PENDING
        && has("a report that is lost counts as done"))
        *report = HOUND_DONE;
    if (recorder->effect.kind == HOUND_WRITE_BLOCK && *report == HOUND_FAILED && has("a failed write counts"))
        *report = HOUND_DONE;
    if (recorder->health == 2 && has("a failed sync is forgotten")) recorder->health = 0;
    if (recorder->number == 0 && recorder->health == 1 && has("no sync after a failed write"))
        recorder->health = 0;
    int is_said = recorder->health == 2 && recorder->effect.kind == HOUND_NOTHING && recorder->phase == 0;
    if (is_said && has("a failed sync is reported once")) return 0;
    int32_t code = __real_hound_recorder_next(recorder);
    int is_left_out = (recorder->effect.kind == HOUND_SHORTEN && has("no cut"))
                      || (recorder->effect.length == 1 && has("no pad byte in a checkpoint"))
                      || (recorder->effect.kind == HOUND_SYNC && recorder->number < 3 && has("sizes before a sync"));
    if (code == 1 && is_left_out) return *report = HOUND_DONE, __real_hound_recorder_next(recorder);
    if (code == 1 && recorder->effect.kind == HOUND_WRITE_BLOCK && has("place of the header"))
        recorder->effect.place = recorder->data_start;
    return code;
}

REAL(int32_t, repairer_next, (hound_repairer *repairer, hound_repair_t *found)) {
    uint16_t *report = &repairer->effect.report;
    if (repairer->effect.kind > HOUND_READ && *report == HOUND_FAILED && has("a repair goes on after a failure"))
        *report = HOUND_DONE;
    int32_t code = __real_hound_repairer_next(repairer, found);
    int is_left_out =
        (repairer->effect.kind == HOUND_SYNC && has("a repair without syncs"))
        || (repairer->effect.length == 1 && repairer->effect.kind == HOUND_WRITE && has("a repair without a pad byte"));
    if (code == 1 && is_left_out) return *report = HOUND_DONE, __real_hound_repairer_next(repairer, found);
    if (code == 0 && has("a repair finds a frame more")) found->frames++;
    if (code == 0 && has("a repair counts a frame more")) found->counted++;
    if (code == 0 && found->state == HOUND_ALL_COUNTED && has("what is all counted is cut off"))
        found->state = HOUND_CUT_OFF;
    if (code == 0 && has("a repair finds another length")) found->length++;
    return code;
}

REAL(int32_t, follower_next, (hound_follower *follower)) {
    hound_effect *effect = &follower->effect;
    uint64_t length = follower->data_start - 4;
    uint32_t before = follower->counted;
    int is_byte = effect->kind == HOUND_READ && effect->length == 1 && follower->data_start > 0;
    if (is_byte && has("a follower takes the first byte first")) effect->place = 2 * length + 3 - effect->place;
    if (effect->report == HOUND_FAILED && has("a follower takes a failed read")) effect->report = HOUND_DONE;
    if (effect->report == HOUND_PENDING && has("a follower takes a report that is lost for done"))
        effect->report = HOUND_DONE;
    int32_t code = __real_hound_follower_next(follower);
    is_byte = code == 1 && effect->length == 1 && follower->data_start > 0;
    if (is_byte && has("a follower takes the first byte first")) effect->place = 2 * length + 3 - effect->place;
    if (code == HOUND_NOTHING_NEW && follower->last < before && has("a follower takes a length that counts fewer"))
        follower->counted = follower->last;
    if (code == 0 && has("a follower counts a part of a frame")) follower->counted = follower->last;
    if (code == 0 && before == 0 && has("a follower counts nothing at first")) follower->counted = 0;
    if (code == HOUND_TOO_LONG && has("a follower takes any length")) return follower->counted = UINT32_MAX, 0;
    return code == HOUND_NOTHING_NEW && has("a follower says nothing of nothing new") ? 0 : code;
}

static int is_odd(const uint8_t *file, size_t length) {
    hound_info_t info;
    return __real_hound_info(file, length, &info) == 0 && info.samples * info.spec.bytes_per_sample % 2 == 1;
}

#define CALLS(name, sample)                                                                                            \
    REAL(int64_t, write_##name,                                                                                        \
         (const hound_spec *spec, const sample *samples, size_t count, uint8_t *out, size_t capacity)) {               \
        int64_t n = __real_hound_write_##name(spec, samples, count, out, capacity);                                    \
        if (n == HOUND_UNFINISHED_FRAME && has("write of torn frames"))                                                \
            return __real_hound_write_##name(spec, samples, count - 1, out, capacity);                                 \
        if (n == HOUND_TOO_LONG && has("write past 32 bits")) return (int64_t)(44 + 2 * count);                        \
        if (n > 0 && has("write returns the capacity")) return (int64_t)capacity;                                      \
        return n;                                                                                                      \
    }                                                                                                                  \
    REAL(int64_t, append_##name, (uint8_t *file, size_t capacity, size_t used, const sample *samples, size_t count)) { \
        if (has("append takes at most the capacity") && used > capacity) used = capacity;                              \
        if (has("append of nothing") && count == 0 && used <= capacity) return (int64_t)used;                          \
        int64_t n = __real_hound_append_##name(file, capacity, used, samples, count);                                  \
        if (n == HOUND_TRUNCATED && has("append takes stale bytes"))                                                   \
            return __real_hound_append_##name(file, capacity, capacity, samples, count);                               \
        if (n == HOUND_UNFINISHED_FRAME && has("append of torn frames"))                                               \
            return __real_hound_append_##name(file, capacity, used, samples, count - 1);                               \
        if (n == HOUND_TOO_LONG && has("append past 32 bits")) return (int64_t)used;                                   \
        if (n < 0) return n;                                                                                           \
        if (has("append leaves a RIFF size of 0")) memset(file + 4, 0, 4);                                             \
        if (has("append leaves no pad byte") && is_odd(file, (size_t)n)) file[n - 1] = 9;                              \
        if (has("append returns no pad byte") && is_odd(file, (size_t)n)) return n - 1;                                \
        return has("append returns the capacity") ? (int64_t)capacity : n;                                             \
    }                                                                                                                  \
    REAL(int64_t, encode_##name,                                                                                       \
         (const hound_spec *spec, const sample *samples, size_t count, uint8_t *out, size_t capacity)) {               \
        int64_t n = __real_hound_encode_##name(spec, samples, count, out, capacity);                                   \
        return n == (int64_t)capacity && has("encode that fills") ? INT64_MAX : n;                                     \
    }
CALLS(i16, int16_t)
CALLS(i32, int32_t)
CALLS(f32, float)
