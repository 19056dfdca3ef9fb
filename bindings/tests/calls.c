/* Each call of the header over small files, with what it must return by the format, and what each
   error leaves: nothing changed. What follows each file can't be touched by AddressSanitizer's rules. */
#include "hound.h"
#include <math.h>
#include <stdio.h>
#include <stdlib.h>
#include <string.h>
#include <sys/mman.h>
#include "walked.h"

static void must(int holds, const char *what) {
    if (!holds) {
        fprintf(stderr, "calls: %s\n", what);
        exit(1);
    }
}

/* A copy that ends where its memory ends. */
static uint8_t *copy(const uint8_t *bytes, size_t length) {
    uint8_t *found = malloc(length ? length : 1);
    must(found != NULL, "memory");
    memcpy(found, bytes, length);
    return found;
}

/* Whether all bytes from a place up to an end have a value. */
static int all_are(const uint8_t *bytes, int64_t from, size_t end, int value) {
    for (size_t i = (size_t)from; i < end; i++)
        if (bytes[i] != value) return 0;
    return 1;
}

static uint32_t le32(const uint8_t *p) {
    return p[0] | (uint32_t)p[1] << 8 | (uint32_t)p[2] << 16 | (uint32_t)p[3] << 24;
}

static void put32(uint8_t *p, uint32_t value) {
    for (int i = 0; i < 4; i++) p[i] = (uint8_t)(value >> 8 * i);
}

/* A returned length is that of the file with so many bytes of data, whose sizes and pad byte are right. */
static void whole(const uint8_t *file, int64_t length, size_t start, uint64_t data, const char *what) {
    uint64_t end = start + data + data % 2;
    must(length == (int64_t)end && le32(file + 4) == end - 8 && le32(file + start - 4) == data, what);
    must(data % 2 == 0 || file[end - 1] == 0, what);
}

static const uint8_t four[52] = {
    'R', 'I', 'F', 'F', 44, 0, 0, 0, 'W', 'A', 'V', 'E', 'f', 'm', 't', ' ', 16, 0, 0, 0, 1, 0, 1, 0, 0x44, 0xac, 0, 0,
    0x88, 0x58, 1, 0, 2, 0, 16, 0, 'd', 'a', 't', 'a', 8, 0, 0, 0, 2, 0, 253, 255, 5, 0, 249, 255};
static const int16_t shorts[4] = {2, -3, 5, -7};
static const int32_t ints[4] = {2, -3, 5, -7};
static const float reals[4] = {2, -3, 5, -7};
/* One sample of 24 bits: the extensible header, three bytes, and a pad byte. */
static const uint8_t one[72] = {
    'R', 'I', 'F', 'F', 64, 0, 0, 0, 'W', 'A', 'V', 'E',
    'f', 'm', 't', ' ', 40, 0, 0, 0, 0xfe, 0xff, 1, 0, 0x44, 0xac, 0, 0, 0xcc, 4, 2, 0, 3, 0, 24, 0,
    22, 0, 24, 0, 1, 0, 0, 0, 1, 0, 0, 0, 0, 0, 0x10, 0, 0x80, 0, 0, 0xaa, 0, 0x38, 0x9b, 0x71,
    'd', 'a', 't', 'a', 3, 0, 0, 0, 254, 255, 255, 0};

/* The pairs of bits and bytes that are written, and how long their header is. */
static const struct { uint16_t bits, bytes, format; size_t start; } kinds[] = {
    {8, 1, HOUND_INT, 44}, {16, 2, HOUND_INT, 44}, {24, 3, HOUND_INT, 68},
    {24, 4, HOUND_INT, 68}, {32, 4, HOUND_INT, 68}, {32, 4, HOUND_FLOAT, 68}};
enum { KINDS = sizeof kinds / sizeof *kinds };

static hound_spec spec_of(int kind, uint16_t channels) {
    hound_spec spec = {44100, channels, kinds[kind].bits, kinds[kind].bytes, kinds[kind].format};
    return spec;
}

/* The calls of each type, 'h' i16, 'i' i32 and 'f' f32, over the four samples from one on. */
static int takes(char type, int kind) { return (type == 'f') == (kinds[kind].format == HOUND_FLOAT); }
static int64_t written(char type, const hound_spec *spec, size_t count, uint8_t *out, size_t capacity) {
    return type == 'h'   ? hound_write_i16(spec, shorts, count, out, capacity)
           : type == 'i' ? hound_write_i32(spec, ints, count, out, capacity)
                         : hound_write_f32(spec, reals, count, out, capacity);
}
static int64_t appended(char type, uint8_t *file, size_t capacity, size_t used, size_t from, size_t count) {
    return type == 'h'   ? hound_append_i16(file, capacity, used, shorts + from, count)
           : type == 'i' ? hound_append_i32(file, capacity, used, ints + from, count)
                         : hound_append_f32(file, capacity, used, reals + from, count);
}
static int64_t encoded(char type, const hound_spec *spec, size_t count, uint8_t *out, size_t capacity) {
    return type == 'h'   ? hound_encode_i16(spec, shorts, count, out, capacity)
           : type == 'i' ? hound_encode_i32(spec, ints, count, out, capacity)
                         : hound_encode_f32(spec, reals, count, out, capacity);
}

static void reads(void) {
    uint8_t *file = copy(four, sizeof four);
    hound_info_t info;
    must(hound_info(file, 52, &info) == 0, "info");
    must(info.spec.sample_rate == 44100 && info.spec.channels == 1 && info.spec.bits_per_sample == 16, "the spec");
    must(info.spec.bytes_per_sample == 2 && info.spec.sample_format == HOUND_INT, "the container");
    must(info.samples == 4 && info.data_start == 44, "the data");
    int16_t back[6] = {9, 9, 9, 9, 9, 9};
    must(hound_read_i16(file, 52, 1, back, 6) == 3, "three samples");
    must(back[0] == -3 && back[1] == 5 && back[2] == -7 && back[3] == 9, "their values, and the rest");
    int32_t wide[4];
    must(hound_read_i32(file, 52, 0, wide, 4) == 4 && !memcmp(wide, ints, sizeof wide), "as 32 bits");
    must(hound_read_i32(file, 52, 4, wide, 4) == 0, "the end");
    float real[1] = {3};
    must(hound_read_f32(file, 52, 0, real, 1) == HOUND_OTHER_FORMAT && real[0] == 3, "floats of integers");
    must(hound_decode_i32(&info.spec, file + 44, 7, wide, 4) == 3 && wide[2] == 5, "decoding whole containers");
    free(file);
    file = copy(four, 51);
    must(hound_read_i16(file, 51, 0, back, 6) == 3, "what a cut file holds");
    must(hound_read_i16(file, 51, 3, back, 6) == HOUND_TRUNCATED && back[0] == 2, "a cut sample");
    free(file);
    for (size_t length = 0; length < 44; length++) {
        file = copy(four, length);
        memset(&info, 7, sizeof info);
        must(hound_info(file, length, &info) == HOUND_ENDED && info.samples == 0x07070707, "a header that ends early");
        free(file);
    }
}

/* Which bits a PCM fmt chunk of each length takes, in whole bytes. */
static void fmt_chunks(void) {
    for (uint8_t length = 16; length <= 40; length++) for (uint8_t bits = 8; bits <= 64; bits += 8) {
        uint8_t file[20 + 40 + 8] = {'R', 'I', 'F',    'F', 0, 0, 0, 0, 'W', 'A', 'V', 'E', 'f', 'm',
                                     't', ' ', length, 0,   0, 0, 1, 0, 1,   0,   100, 0,   0,   0};
        put32(file + 28, 100u * bits / 8);
        file[32] = bits / 8;
        file[34] = bits;
        memcpy(file + 20 + length, "data", 4);
        hound_info_t info;
        int32_t code = hound_info(file, 28u + length, &info);
        if (length == 16) must(code == 0 && info.spec.bits_per_sample == bits, "a fmt chunk of 16 bytes");
        else if (length != 18 && length != 40) must(code == HOUND_UNEXPECTED_FMT_SIZE, "a fmt chunk of another length");
        else must(code == (bits <= 24 ? 0 : HOUND_BITS_NOT_8_OR_16), "a fmt chunk of 18 or 40 bytes");
    }
}

static void writes(void) {
    hound_spec spec = {44100, 1, 16, 0, HOUND_INT};
    uint8_t out[80];
    memset(out, 9, sizeof out);
    must(hound_size(&spec, 4) == 52, "the size");
    must(hound_write_i16(&spec, shorts, 4, out, 52) == 52 && !memcmp(out, four, 52) && out[52] == 9, "writing");
    memset(out, 9, sizeof out);
    must(hound_write_i32(&spec, ints, 4, out, 80) == 52 && !memcmp(out, four, 52) && out[52] == 9, "writing 32 bits");
    must(hound_append_i16(out, 53, 52, shorts, 1) == HOUND_NO_ROOM && !memcmp(out, four, 52), "no room");
    int32_t many[2] = {1, 32768};
    must(hound_write_i32(&spec, many, 2, out, 80) == HOUND_TOO_WIDE && !memcmp(out, four, 52), "a value of 17 bits");
    spec.bits_per_sample = 12;
    must(hound_write_i16(&spec, shorts, 3, out, 80) == HOUND_NOT_WRITABLE, "12 bits");
    /* No channel, no rate, a frame of 131070 bytes, and 2^32 bytes a second. */
    static const hound_spec none[] = {{44100, 0, 16, 0, HOUND_INT},
                                      {0, 1, 16, 0, HOUND_INT},
                                      {1, 65535, 16, 0, HOUND_INT},
                                      {2147483648u, 1, 16, 0, HOUND_INT}};
    for (int i = 0; i < 4; i++)
        must(hound_write_i16(&none[i], shorts, 0, out, 80) == HOUND_NOT_WRITABLE
                 && hound_size(&none[i], 0) == HOUND_NOT_WRITABLE,
             "a spec that isn't written");
    must(!memcmp(out, four, 52), "nothing is written for such a spec");
    hound_spec three = {44100, 1, 24, 0, HOUND_INT};
    int32_t small = -2;
    memset(out, 9, sizeof out);
    must(hound_write_i32(&three, &small, 1, out, 80) == 72 && !memcmp(out, one, 72) && out[72] == 9,
         "an extensible header");
}

/* Files of each kind, written and appended to in memory of other bytes that is longer than they are: their own
   sizes, their pad byte, and the rest as it was; and what is found in them. */
static void files_of_each_kind(void) {
    for (int kind = 0; kind < KINDS; kind++)
        for (const char *type = "hif"; *type; type++)
            for (size_t n = 0; n < 4; n++) {
        if (!takes(*type, kind)) continue;
        hound_spec spec = spec_of(kind, 1);
        size_t start = kinds[kind].start, width = kinds[kind].bytes;
        for (size_t more = 0; n + more <= 4; more++) {
            uint8_t file[100];
            memset(file, 9, sizeof file);
            int64_t used = written(*type, &spec, n, file, sizeof file);
            whole(file, used, start, n * width, "a written file");
            must(all_are(file, used, sizeof file, 9) && hound_size(&spec, n) == used, "the rest after a written file");
            uint8_t header[69], sizes[9];
            memset(header, 9, sizeof header);
            memset(sizes, 9, sizeof sizes);
            must(hound_header(&spec, n, header, start - 1) == HOUND_NO_ROOM
                     && hound_sizes(&spec, start, n, sizes, 7) == HOUND_NO_ROOM,
                 "no room for a header");
            must(all_are(header, 0, sizeof header, 9) && all_are(sizes, 0, sizeof sizes, 9), "no room changes nothing");
            must(hound_header(&spec, n, header, sizeof header) == (int64_t)start && !memcmp(header, file, start),
                 "a header");
            must(hound_sizes(&spec, start, n, sizes, sizeof sizes) == used && le32(sizes) == le32(file + 4)
                     && le32(sizes + 4) == n * width,
                 "two sizes");
            must(all_are(header, (int64_t)start, sizeof header, 9) && sizes[8] == 9,
                 "the rest after a header and sizes");
            put32(file + 4, 0);
            used = appended(*type, file, sizeof file, (size_t)used, n, more);
            whole(file, used, start, (n + more) * width, "a file that was appended to");
            must(all_are(file, used, sizeof file, 9), "the rest after a file that was appended to");
            hound_info_t info;
            must(hound_info(file, (size_t)used, &info) == 0 && !memcmp(&info.spec, &spec, sizeof spec),
                 "the spec of a file");
            hound_info_t parted;
            must(walked(hound_walk_next, file, (size_t)used, &parted) == 0 && !memcmp(&parted.spec, &spec, sizeof spec),
                 "the spec, by parts");
            must(parted.samples == n + more && parted.data_start == start, "the samples, by parts");
            must(info.samples == n + more && info.data_start == start, "the samples of a file");
            for (int other = 0; other < 2; other++) { /* a file that is whole; and one with another RIFF size */
                hound_repair_t found;
                if (other) put32(file + 4, 0);
                must(hound_repair(file, (size_t)used, (size_t)used, &found) == used, "the length of a repaired file");
                must(!memcmp(&found.spec, &spec, sizeof spec) && found.frames == n + more && found.counted == n + more,
                     "what a repair finds");
                must(found.left_over == 0 && found.state == (other ? HOUND_ALL_COUNTED : HOUND_WHOLE),
                     "how a repair finds a file");
                must(le32(file + 4) == (other ? 0 : (uint32_t)used - 8), "a file whose samples are all counted stays");
                must(repaired(file, (size_t)used, HOUND_MAKE_CANONICAL, &found) == used, "a canonical file");
                whole(file, used, start, (n + more) * width, "a file that was made canonical");
            }
        }
        /* Containers that fill their memory, and one byte less. */
        uint8_t bytes[16], file[100];
        memset(bytes, 9, sizeof bytes);
        must(n == 0
                 || (encoded(*type, &spec, n, bytes, n * width - 1) == HOUND_NO_ROOM
                     && all_are(bytes, 0, sizeof bytes, 9)),
             "no room for containers");
        must(encoded(*type, &spec, n, bytes, n * width) == (int64_t)(n * width), "containers that fill their memory");
        must(written(*type, &spec, n, file, sizeof file) > 0 && !memcmp(bytes, file + start, n * width),
             "the containers of a file");
        must(all_are(bytes, (int64_t)(n * width), sizeof bytes, 9), "the rest after containers");
    }
}

/* What an append and a repair must not do: take bytes after `used` for samples, use more than the capacity, leave a
   torn frame. Nothing changes then. */
static void errors_of_files(void) {
    for (int kind = 0; kind < KINDS; kind++) for (const char *type = "hif"; *type; type++) {
        if (!takes(*type, kind)) continue;
        hound_spec spec = spec_of(kind, 1);
        size_t start = kinds[kind].start, width = kinds[kind].bytes;
        uint8_t file[100], before[100];
        memset(file, 0x55, sizeof file);
        size_t used = (size_t)written(*type, &spec, 4, file, sizeof file);
        memset(file + start + 2 * width, 0x55, 2 * width);
        memcpy(before, file, sizeof file);
        for (size_t held = start + 2 * width; held < start + 4 * width; held++)
            must(appended(*type, file, sizeof file, held, 0, 1) == HOUND_TRUNCATED, "bytes after those that are used");
        hound_repair_t found;
        memset(&found, 7, sizeof found);
        for (size_t more = 1; more <= 3; more++) {
            must(appended(*type, file, used, used + more, 0, 0) == HOUND_NO_ROOM,
                 "an append where more is used than there is");
            must(appended(*type, file, used, used + more, 0, 1) == HOUND_NO_ROOM,
                 "an append where more is used than there is");
            must(hound_repair(file, used, used + more, &found) == HOUND_NO_ROOM,
                 "a repair where more is used than there is");
        }
        must(found.spec.sample_rate == 0x07070707 && found.state == 0x07070707, "what a failed repair reports");
        must(!memcmp(file, before, sizeof file), "an error changes no file");
        spec.channels = 2;
        must(hound_size(&spec, 3) == HOUND_UNFINISHED_FRAME, "the size of a torn frame");
        must(written(*type, &spec, 3, file, sizeof file) == HOUND_UNFINISHED_FRAME
                 && !memcmp(file, before, sizeof file),
             "a torn frame");
        used = (size_t)written(*type, &spec, 2, file, sizeof file);
        memcpy(before, file, sizeof file);
        must(appended(*type, file, sizeof file, used, 0, 1) == HOUND_UNFINISHED_FRAME, "half a frame more");
        must(appended(*type, file, sizeof file, used, 0, 3) == HOUND_UNFINISHED_FRAME, "a frame and a half more");
        must(!memcmp(file, before, sizeof file), "torn frames change no file");
    }
}

/* A file with a chunk of three bytes and their pad byte before its fmt chunk, and the parts that a walk asks for: the
   front, a header, the pad byte and the next header, the fields of the fmt chunk, the header of the data. */
static const uint8_t listed[58] = {
    'R', 'I', 'F', 'F', 50, 0, 0, 0, 'W', 'A', 'V', 'E', 'L', 'I', 'S', 'T', 3, 0, 0, 0, 'a', 'b', 'c', 0,
    'f', 'm', 't', ' ', 16, 0, 0, 0, 1, 0, 1, 0, 0x44, 0xac, 0, 0, 0x88, 0x58, 1, 0, 2, 0, 16, 0,
    'd', 'a', 't', 'a', 2, 0, 0, 0, 7, 0};
static const struct { uint64_t place; uint32_t length; } parts[] = {{0, 12}, {12, 8}, {23, 9}, {32, 16}, {48, 8}};
enum { PARTS = sizeof parts / sizeof *parts };

static void walks(void) {
    for (int more = 0; more < 2; more++) { /* with bytes past the part, too */
        hound_walk walk = HOUND_WALK_BEGIN;
        hound_info_t info;
        memset(&info, 7, sizeof info);
        for (int i = 0; i < PARTS; i++) {
            must(hound_walk_next(&walk, &info) == 1 && hound_walk_next(&walk, &info) == 1,
                 "a step, and the same again");
            must(walk.effect.kind == HOUND_READ && walk.effect.place == parts[i].place
                     && walk.effect.length == parts[i].length,
                 "the part that is asked for");
            walk.effect.report = HOUND_FAILED;
            must(hound_walk_next(&walk, &info) == HOUND_NOT_PERFORMED
                     && hound_walk_next(&walk, &info) == HOUND_NOT_PERFORMED,
                 "a part that can't be read");
            walk.effect.report = HOUND_PENDING;
            must(hound_walk_next(&walk, &info) == 1, "a part that is requested again");
            read_part(listed, sizeof listed, &walk.effect);
            if (more) walk.effect.length += 1;
        }
        must(hound_walk_next(&walk, &info) == 0, "the last step");
        must(info.data_start == 56 && info.samples == 1 && info.spec.sample_rate == 44100, "what a walk finds");
        must(info.spec.channels == 1 && info.spec.bits_per_sample == 16 && info.spec.bytes_per_sample == 2
                 && info.spec.sample_format == HOUND_INT,
             "the spec of a walk");
    }
    for (size_t length = 0; length < 56; length++) {
        hound_info_t info;
        memset(&info, 7, sizeof info);
        must(walked(hound_walk_next, listed, length, &info) == HOUND_ENDED && info.samples == 0x07070707,
             "a walk that ends early");
    }
    uint8_t other[58];
    hound_info_t info;
    memcpy(other, listed, sizeof other);
    other[24] = 'F';
    must(walked(hound_walk_next, other, sizeof other, &info) == HOUND_NO_FMT_CHUNK, "a walk without a fmt chunk");
    memcpy(other, listed, sizeof other);
    other[52] = 1;
    must(walked(hound_walk_next, other, sizeof other, &info) == HOUND_DATA_LENGTH, "a walk to half a sample");
    memcpy(other, listed, sizeof other);
    put32(other + 16, 0xfffffff8);
    must(walked(hound_walk_next, other, sizeof other, &info) == HOUND_NO_DATA_CHUNK, "a chunk that ends past 32 bits");
    put32(other + 16, 0xfffffff7);
    must(walked(hound_walk_next, other, sizeof other, &info) == HOUND_NO_DATA_CHUNK,
         "a chunk whose pad byte ends past 32 bits");
    put32(other + 16, 0xfffffff6);
    must(walked(hound_walk_next, other, sizeof other, &info) == HOUND_ENDED, "a chunk that is longer than the file");
}

/* A stream of stereo, whose header counts what programs write that don't know its length; and what a header that is
   damaged still says. */
static void streams(void) {
    static const uint32_t counted[] = {0, 0x7fffffff, 0x7ffff000, 0xffffffff};
    hound_spec spec = {44100, 2, 16, 0, HOUND_INT};
    const int16_t samples[4] = {1, -1, 2, -2};
    uint8_t file[56];
    hound_info_t info;
    must(hound_write_i16(&spec, samples, 4, file, sizeof file) == 52, "a file");
    for (size_t i = 0; i < sizeof counted / sizeof *counted; i++) {
        put32(file + 40, counted[i]);
        must(walked(hound_walk_to_end, file, 52, &info) == 0 && info.samples == 0 && info.data_start == 44, "a stream");
        must(info.spec.channels == 2 && info.spec.bits_per_sample == 16, "the spec of a stream");
    }
    must(walked(hound_walk_next, file, 52, &info) == HOUND_DATA_LENGTH, "a length of no whole samples");
    must(walked(hound_walk_to_end, file, 43, &info) == HOUND_ENDED, "a stream without a whole header");
    must(hound_whole_frames(&spec, 11) == 8 && hound_whole_frames(&spec, 3) == 0 && hound_whole_frames(&spec, 8) == 8,
         "whole frames");
    must(hound_whole_frames(&spec, INT64_MAX) == INT64_MAX - 3
             && hound_whole_frames(&spec, UINT64_MAX) == HOUND_TOO_LONG,
         "many of them");
    must(hound_guess_data(file, 52) == 44 && hound_guess_data(file, 44) == 44
             && hound_guess_data(file, 43) == HOUND_NO_DATA_CHUNK,
         "a guess");
    memset(file, 0, 36);
    must(hound_guess_data(file, 52) == 44, "a guess without anything before it");
    file[36] = 'D';
    must(hound_guess_data(file, 52) == HOUND_NO_DATA_CHUNK && hound_guess_data(file, 0) == HOUND_NO_DATA_CHUNK,
         "nothing to guess by");
    spec.channels = 0;
    must(hound_whole_frames(&spec, 8) == HOUND_NOT_WRITABLE, "frames of no channel");
    for (uint16_t format = 2; format != 0; format = (uint16_t)(format * 2)) {
        hound_spec other = {44100, 2, 16, 0, format};
        must(hound_size(&other, 4) == HOUND_NOT_WRITABLE, "a number that is no format");
    }
}

/* A look of a follower over a file in memory: what it returns, after how many reads. */
static int32_t looked(hound_follower *follower, const uint8_t *file, size_t length, int *reads) {
    int32_t code;
    for (*reads = 0; (code = hound_follower_next(follower)) == 1; ++*reads)
        read_part(file, length, &follower->effect);
    must(follower->effect.kind == HOUND_NOTHING, "nothing is requested after a look");
    return code;
}

/* The same, which has to end like this after so many reads, with so many bytes counted. */
static void looks(hound_follower *follower, const uint8_t *file, size_t length, int32_t code, int reads,
                  uint32_t counted, const char *what) {
    int done;
    must(looked(follower, file, length, &done) == code && done == reads && follower->counted == counted, what);
}

/* Whether this is the read of so many bytes at a place. */
static int is_read(const hound_effect *effect, uint64_t place, uint32_t length) {
    return effect->kind == HOUND_READ && effect->report == HOUND_PENDING && effect->place == place
           && effect->length == length;
}

/* A recording under way, of frames of two bytes after a chunk, whose header comes byte by byte. */
static void followers(void) {
    uint8_t file[sizeof listed + 8] = {0};
    int reads;
    hound_follower follower = HOUND_FOLLOWER_BEGIN;
    memcpy(file, listed, sizeof listed);
    for (size_t length = 0; length < 56; length++)
        must(looked(&follower, file, length, &reads) == HOUND_NOTHING_NEW && follower.data_start == 0,
             "a header that isn't whole yet");
    looks(&follower, file, 56, 0, PARTS, 0, "a header that is whole");
    must(follower.data_start == 56 && follower.spec.sample_rate == 44100 && follower.spec.channels == 1
             && follower.spec.bits_per_sample == 16 && follower.spec.bytes_per_sample == 2
             && follower.spec.sample_format == HOUND_INT,
         "what the header says");
    looks(&follower, file, sizeof file, 0, 5, 2, "the first frame");
    looks(&follower, file, sizeof file, HOUND_NOTHING_NEW, 1, 2, "nothing new");
    put32(file + 52, 6);
    looks(&follower, file, sizeof file, 0, 5, 6, "a length that grows");
    put32(file + 52, 2);
    looks(&follower, file, sizeof file, HOUND_NOTHING_NEW, 5, 6, "a length that counts fewer");
    looks(&follower, file, sizeof file, HOUND_NOTHING_NEW, 1, 6, "the same one");
    put32(file + 52, 9);
    looks(&follower, file, sizeof file, 0, 5, 8, "whole frames alone");
    put32(file + 52, 8);
    looks(&follower, file, sizeof file, HOUND_NOTHING_NEW, 5, 8, "the same frames");
    put32(file + 52, UINT32_MAX);
    looks(&follower, file, sizeof file, HOUND_TOO_LONG, 5, 8, "the length of a stream");
    put32(file + 52, UINT32_MAX - 48); /* The RIFF size, of 48 bytes more and a pad byte, has no room. */
    looks(&follower, file, sizeof file, HOUND_TOO_LONG, 5, 8, "a length of no file");
    put32(file + 52, UINT32_MAX - 49);
    looks(&follower, file, sizeof file, 0, 5, UINT32_MAX - 49, "the greatest length");
    looks(&follower, file, 55, HOUND_TRUNCATED, 1, UINT32_MAX - 49, "a file that was cut off");
    looks(&follower, file, 0, HOUND_TRUNCATED, 1, UINT32_MAX - 49, "a file that was emptied");
    looks(&follower, file, sizeof file, HOUND_NOTHING_NEW, 1, UINT32_MAX - 49, "and is there again");
}

/* Each read is requested again where its report is left out; one that fails, or is short, ends the look. Bytes past
   what was requested mean nothing. The four bytes of the length come from the last to the first. */
static void reads_of_followers(void) {
    static const struct { uint64_t place; uint32_t length; } of_length[] = {
        {52, 4}, {55, 1}, {54, 1}, {53, 1}, {52, 1}};
    uint8_t file[sizeof listed];
    hound_follower follower = HOUND_FOLLOWER_BEGIN;
    memcpy(file, listed, sizeof file);
    for (int look = 0; look < 2; look++)
        for (int part = 0; part < (look == 0 ? PARTS : 5); part++) {
            for (int way = 0; way < 4; way++) {
                for (int i = 0; i <= part; i++) {
                    uint64_t place = look == 0 ? parts[i].place : of_length[i].place;
                    uint32_t length = look == 0 ? parts[i].length : of_length[i].length;
                    must(hound_follower_next(&follower) == 1 && is_read(&follower.effect, place, length)
                             && hound_follower_next(&follower) == 1 && is_read(&follower.effect, place, length),
                         "a read of a look, and the same again");
                    read_part(file, sizeof file, &follower.effect);
                    if (way == 0) follower.effect.length = HOUND_EFFECT_BYTES + 9;
                }
                if (way == 1) follower.effect.report = HOUND_FAILED;
                if (way == 2) follower.effect.length -= 1;
                int32_t code = way == 1 ? HOUND_NOT_PERFORMED : look == 0 ? HOUND_NOTHING_NEW : HOUND_TRUNCATED;
                if (way == 1 || way == 2) must(hound_follower_next(&follower) == code, "a read that fails or is short");
                if (way == 0 || way == 3) follower.effect.report = HOUND_FAILED, hound_follower_next(&follower);
                must(follower.counted == 0 && (follower.data_start == 0) == (look == 0), "what a look leaves");
            }
            if (look == 0 && part + 1 == PARTS) looks(&follower, file, sizeof file, 0, PARTS, 0, "a whole header");
        }
    looks(&follower, file, sizeof file, 0, 5, 2, "a look after all of these");
}

/* Headers that aren't read, after each of which the next look begins at the front. */
static void headers_of_followers(void) {
    static const struct { size_t place; uint8_t value; int32_t code; } wrong[] = {
        {0, 'L', HOUND_NO_RIFF_TAG}, {8, 'w', HOUND_NO_WAVE_TAG}, {24, 'F', HOUND_NO_FMT_CHUNK},
        {34, 0, HOUND_ZERO_CHANNELS}, {32, 7, HOUND_UNSUPPORTED}};
    uint8_t file[sizeof listed];
    hound_follower follower = HOUND_FOLLOWER_BEGIN;
    int reads;
    for (size_t i = 0; i < sizeof wrong / sizeof *wrong; i++) {
        memcpy(file, listed, sizeof file);
        file[wrong[i].place] = wrong[i].value;
        must(looked(&follower, file, sizeof file, &reads) == wrong[i].code && follower.data_start == 0,
             "a header that isn't read");
    }
    looks(&follower, listed, sizeof listed, 0, PARTS, 0, "a header that is read");
}

/* While a recorder stores a length, from its first byte on, a look counts no more than it, wherever the reads come. */
static void torn_lengths(void) {
    static const uint32_t lengths[][2] = {{0, 0x1fe}, {0xfe, 0x100}, {0xffe, 0x1000}, {0xfffe, 0x10000},
                                          {0x107f07e, 0x107f170}, {0x10fffe, 0x200000}, {0xfffffe, 0x1000000}};
    for (size_t i = 0; i < sizeof lengths / sizeof *lengths; i++)
        for (int moments = 0; moments < 625; moments++) {
            uint8_t file[sizeof listed];
            hound_follower follower = HOUND_FOLLOWER_BEGIN;
            int reads, stored = 0, number = 0, left = moments;
            memcpy(file, listed, sizeof file);
            looks(&follower, file, sizeof file, 0, PARTS, 0, "the header");
            put32(file + 52, lengths[i][0]);
            looked(&follower, file, sizeof file, &reads);
            must(follower.counted == lengths[i][0], "a length");
            for (; hound_follower_next(&follower) == 1; number++) {
                for (int more = number < 4 ? left % 5 : 4; more > 0 && stored < 4; more--, stored++)
                    file[52 + stored] = (uint8_t)(lengths[i][1] >> 8 * stored);
                left /= 5;
                read_part(file, sizeof file, &follower.effect);
            }
            must(follower.counted <= lengths[i][1], "a length that is torn counts too much");
            looked(&follower, file, sizeof file, &reads);
            while (stored < 4) file[52 + stored] = (uint8_t)(lengths[i][1] >> 8 * stored), stored++;
            looked(&follower, file, sizeof file, &reads);
            must(follower.counted == lengths[i][1], "the length once it is stored");
        }
}

/* Whatever a follower's bytes are, it requests reads that have room, and counts whole frames. */
static void followers_of_any_bytes(void) {
    uint64_t state = 1;
    for (int i = 0; i < 100000; i++) {
        hound_follower follower;
        uint8_t *bytes = (uint8_t *)&follower;
        for (size_t j = 0; j < sizeof follower; j++)
            state = state * 6364136223846793005u + 1442695040888963407u, bytes[j] = (uint8_t)(state >> 56);
        follower.effect.kind = (uint16_t)(i % 3), follower.effect.report = (uint16_t)(i / 3 % 4);
        if (i % 2) follower.part %= 10;
        if (i % 4 == 1) follower.spec = spec_of(i % KINDS, 1 + (uint16_t)(i % 7)), follower.data_start %= 1u << 16;
        for (int step = 0; step < 8; step++) {
            int32_t code = hound_follower_next(&follower);
            must(code <= HOUND_NOTHING_NEW && code >= HOUND_NOT_PERFORMED, "what a follower returns");
            must(code != 1 || (follower.effect.kind == HOUND_READ && follower.effect.length <= HOUND_EFFECT_BYTES
                               && follower.effect.report == HOUND_PENDING),
                 "a read that has room");
            follower.effect.report = HOUND_DONE;
        }
    }
}

static void eight_bits(void) {
    hound_spec spec = {8000, 1, 8, 0, HOUND_INT}, wide = {8000, 1, 16, 0, HOUND_INT},
               real = {8000, 1, 32, 0, HOUND_FLOAT};
    const int8_t samples[4] = {-128, -1, 0, 127};
    const uint8_t bytes[4] = {0, 127, 128, 255}, wider[8] = {0x80, 0xff, 0xff, 0xff, 0, 0, 127, 0};
    uint8_t out[9];
    int8_t back[5] = {9, 9, 9, 9, 9};
    memset(out, 9, sizeof out);
    must(hound_encode_i8(&spec, samples, 4, out, 9) == 4 && !memcmp(out, bytes, 4) && out[4] == 9,
         "8 bits from -128 on are bytes from 0 on");
    must(hound_encode_i8(&wide, samples, 4, out, 8) == 8 && !memcmp(out, wider, 8) && out[8] == 9, "8 bits as 16");
    must(hound_encode_i8(&wide, samples, 4, out, 7) == HOUND_NO_ROOM
             && hound_encode_i8(&real, samples, 1, out, 9) == HOUND_OTHER_FORMAT,
         "8 bits that don't fit");
    must(hound_decode_i8(&spec, bytes, 4, back, 5) == 4 && !memcmp(back, samples, 4) && back[4] == 9,
         "8 bits, decoded");
    must(hound_decode_i8(&wide, wider, 8, back, 5) == HOUND_TOO_WIDE
             && hound_decode_i8(&real, wider, 8, back, 5) == HOUND_OTHER_FORMAT && back[0] == -128,
         "what 8 bits don't hold");
}

/* One container at a time: the lowest value, the highest, some between, and bytes that have no effect. */
static void values(void) {
    must(hound_value_8(0) == -128 && hound_value_8(0x80) == 0 && hound_value_8(0xffffffff) == 127
             && hound_value_8(0x100) == -128,
         "8 bits");
    must(hound_value_16(0x8000) == -32768 && hound_value_16(0xffff7fff) == 32767 && hound_value_16(0x1fffd) == -3,
         "16 bits");
    must(hound_value_24(0x800000) == -8388608 && hound_value_24(0xff7fffff) == 8388607
             && hound_value_24(0x1fffffd) == -3,
         "24 bits");
    must(hound_value_32(0x80000000) == INT32_MIN && hound_value_32(0x7fffffff) == INT32_MAX
             && hound_value_32(0xfffffffd) == -3,
         "32 bits");
}

/* The other direction: the lowest integer, the highest, and the next ones. */
static void containers_of(void) {
    must(hound_container_8(-128) == 0 && hound_container_8(0) == 0x80 && hound_container_8(127) == 0xff
             && hound_container_8(-129) == HOUND_TOO_WIDE && hound_container_8(128) == HOUND_TOO_WIDE,
         "the containers of 8 bits");
    must(hound_container_16(-32768) == 0x8000 && hound_container_16(32767) == 0x7fff && hound_container_16(-3) == 0xfffd
             && hound_container_16(-32769) == HOUND_TOO_WIDE && hound_container_16(32768) == HOUND_TOO_WIDE,
         "the containers of 16 bits");
    must(hound_container_24(-8388608) == 0x800000 && hound_container_24(8388607) == 0x7fffff
             && hound_container_24(-3) == 0xfffffd && hound_container_24(-8388609) == HOUND_TOO_WIDE
             && hound_container_24(8388608) == HOUND_TOO_WIDE,
         "the containers of 24 bits");
    must(hound_container_32(INT32_MIN) == 0x80000000 && hound_container_32(INT32_MAX) == 0x7fffffff
             && hound_container_32(-3) == 0xfffffffd,
         "the containers of 32 bits");
}

/* The containers of integers of up to 32 bits, of so many bytes each; one byte counts from -128. */
static const uint8_t *containers(const int32_t *values, size_t count, size_t width) {
    static uint8_t bytes[64];
    for (size_t i = 0; i < count * width; i++)
        bytes[i] = (uint8_t)((uint32_t)values[i / width] >> 8 * (i % width)) ^ (width == 1 ? 0x80 : 0);
    return bytes;
}

/* Scales of 16 bits, 8 and 32: halves go to the even integer, and what is past full scale is clipped and counted. */
static void scales(void) {
    const hound_spec bits8 = {48000, 1, 8, 1, HOUND_INT}, bits16 = {48000, 1, 16, 2, HOUND_INT};
    const hound_spec bits24 = {48000, 1, 24, 3, HOUND_INT}, bits32 = {48000, 1, 32, 4, HOUND_INT};
    const hound_spec of_floats = {48000, 1, 32, 4, HOUND_FLOAT}, no_pair = {48000, 1, 20, 4, HOUND_INT};
    const int32_t values[5] = {16384, -32768, 32767, 0, 1};
    const float floats[5] = {0.5f, -1, 32767 / 32768.0f, 0, 1 / 32768.0f};
    float out[6] = {9, 9, 9, 9, 9, 9};
    must(hound_to_f32(&bits16, containers(values, 5, 2), 11, out, 6) == 5 && !memcmp(out, floats, sizeof floats)
             && out[5] == 9,
         "16 bits as floats");
    must(hound_to_f32(&bits16, containers(values, 5, 2), 10, out, 4) == 4 && out[4] == 1 / 32768.0f,
         "as many floats as have room");
    must(hound_to_f32(&bits8, containers(values + 4, 1, 1), 1, out, 6) == 1 && out[0] == 1 / 128.0f,
         "8 bits as floats");
    const int32_t lowest = INT32_MIN, low24 = -8388608;
    must(hound_to_f32(&bits24, containers(&low24, 1, 3), 3, out, 6) == 1 && out[0] == -1, "24 bits as floats");
    must(hound_to_f32(&bits32, containers(&lowest, 1, 4), 4, out, 6) == 1 && out[0] == -1, "32 bits as floats");
    const float some[9] = {1, -1, 0.5f, 2.5f / 32768, 3.5f / 32768, -1.0001f, 4, -2.5f / 32768, 0};
    const int32_t integers[9] = {32767, -32768, 16384, 2, 4, -32768, 32767, -2, 0};
    uint8_t back[20];
    uint64_t clipped = 77;
    memset(back, 9, sizeof back);
    must(hound_from_f32(&bits16, some, 9, back, 20, &clipped) == 18 && !memcmp(back, containers(integers, 9, 2), 18),
         "floats as 16 bits");
    must(clipped == 3 && back[18] == 9 && back[19] == 9, "what is clipped, and the rest");
    const uint32_t nan = 0x7fc00001;
    float number;
    memcpy(&number, &nan, sizeof number);
    must(hound_from_f32(&bits24, &number, 1, back, 20, &clipped) == 3 && back[0] + back[1] + back[2] == 0
             && clipped == 0,
         "no number");
    must(hound_from_f32(&bits8, some + 2, 1, back, 20, &clipped) == 1 && back[0] == 192, "a float as 8 bits");
    must(hound_from_f32(&bits16, floats, 5, back, 20, &clipped) == 10 && !memcmp(back, containers(values, 5, 2), 10)
             && clipped == 0,
         "what comes back");
    clipped = 77;
    must(hound_from_f32(&bits16, some, 9, back, 17, &clipped) == HOUND_NO_ROOM, "no room for scaled samples");
    must(hound_to_f32(&no_pair, back, 4, out, 6) == HOUND_NOT_WRITABLE
             && hound_from_f32(&no_pair, some, 1, back, 20, &clipped) == HOUND_NOT_WRITABLE
             && hound_to_f32(&of_floats, back, 4, out, 6) == HOUND_OTHER_FORMAT
             && hound_from_f32(&of_floats, some, 1, back, 20, &clipped) == HOUND_OTHER_FORMAT,
         "no such integers");
    must(out[0] == -1 && back[1] == 0x40 && clipped == 77, "an error scales nothing");
}

/* Doubles, which have all integers of 32 bits, and halves of a step that a float hasn't. */
static void scales_of_doubles(void) {
    const hound_spec bits8 = {48000, 1, 8, 1, HOUND_INT}, bits16 = {48000, 1, 16, 2, HOUND_INT};
    const hound_spec bits32 = {48000, 1, 32, 4, HOUND_INT}, of_floats = {48000, 1, 32, 4, HOUND_FLOAT};
    const int32_t values[5] = {INT32_MAX, INT32_MIN, 1, 0, -16777217};
    const double doubles[5] = {2147483647 / 2147483648.0, -1, 1 / 2147483648.0, 0, -16777217 / 2147483648.0};
    double out[6] = {9, 9, 9, 9, 9, 9};
    must(hound_to_f64(&bits32, containers(values, 5, 4), 20, out, 6) == 5 && !memcmp(out, doubles, sizeof doubles)
             && out[5] == 9,
         "32 bits as doubles");
    must(hound_to_f64(&bits8, containers(values + 2, 1, 1), 1, out, 6) == 1 && out[0] == 1 / 128.0,
         "8 bits as doubles");
    uint8_t back[24];
    uint64_t clipped = 77;
    must(hound_from_f64(&bits32, doubles, 5, back, 24, &clipped) == 20 && !memcmp(back, containers(values, 5, 4), 20)
             && clipped == 0,
         "what comes back of doubles");
    /* The next doubles after 2.5 steps, and infinities and the largest doubles. */
    const double some[9] = {1, -1, 2.5 / 32768, (2.5 + 4.440892098500626e-16) / 32768, 3.5 / 32768, HUGE_VAL, -HUGE_VAL,
                            1.7976931348623157e308, -32768.5 / 32768};
    const int32_t integers[9] = {32767, -32768, 2, 3, 4, 32767, -32768, 32767, -32768};
    memset(back, 9, sizeof back);
    must(hound_from_f64(&bits16, some, 9, back, 24, &clipped) == 18 && !memcmp(back, containers(integers, 9, 2), 18),
         "doubles as 16 bits");
    must(clipped == 4 && back[18] == 9, "what is clipped of doubles, and the rest");
    const uint64_t nan = 0x7ff8000000000001;
    double number;
    memcpy(&number, &nan, sizeof number);
    must(hound_from_f64(&bits16, &number, 1, back, 24, &clipped) == 2 && back[0] == 0 && back[1] == 0 && clipped == 0,
         "no number of 64 bits");
    clipped = 77;
    must(hound_from_f64(&bits16, some, 9, back, 17, &clipped) == HOUND_NO_ROOM
             && hound_to_f64(&of_floats, back, 4, out, 6) == HOUND_OTHER_FORMAT
             && hound_from_f64(&of_floats, some, 1, back, 24, &clipped) == HOUND_OTHER_FORMAT,
         "no such integers for doubles");
    must(out[0] == 1 / 128.0 && back[0] == 0 && clipped == 77, "an error scales no double");
}

/* Noise: what is expected was computed with fractions. A file that is written in parts is the same. */
static void dithers(void) {
    const hound_spec bits8 = {48000, 1, 8, 1, HOUND_INT}, bits16 = {48000, 1, 16, 2, HOUND_INT};
    const hound_spec bits24 = {48000, 1, 24, 4, HOUND_INT}, of_floats = {48000, 1, 32, 4, HOUND_FLOAT};
    const double doubles[13] = {0, 0, 0, 0, 0, 0, 2.5 / 32768, -2.5 / 32768, 0.5, 1, -1, 32767 / 32768.0, -1.5};
    const int32_t integers[13] = {0, 0, 0, 0, 0, 0, 2, -3, 16385, 32767, -32768, 32767, -32768};
    const int32_t others[13] = {0, 0, 1, 0, 1, 0, 3, -2, 16384, 32767, -32768, 32767, -32768};
    const float floats[4] = {0.1f, -0.3f, 0.7f, 1};
    const int32_t wide[4] = {838861, -2516583, 5872025, 8388607};
    uint8_t out[28];
    uint64_t state = 1, clipped = 77;
    memset(out, 9, sizeof out);
    must(hound_dither_f64(&bits16, doubles, 13, &state, out, 28, &clipped) == 26
             && !memcmp(out, containers(integers, 13, 2), 26) && clipped == 1 && out[26] == 9
             && state == 14456408541175185048u,
         "doubles with noise");
    state = UINT64_MAX;
    must(hound_dither_f64(&bits16, doubles, 7, &state, out, 28, &clipped) == 14 && clipped == 0
             && hound_dither_f64(&bits16, doubles + 7, 6, &state, out + 14, 12, &clipped) == 12
             && !memcmp(out, containers(others, 13, 2), 26) && clipped == 2 && state == 5784830984886631774u,
         "doubles with noise, in parts");
    state = 1;
    uint8_t padded[16]; /* 24 bits in four bytes, of which the last is 0 */
    memcpy(padded, containers(wide, 4, 4), 16);
    for (int i = 0; i < 4; i++) padded[4 * i + 3] = 0;
    must(hound_dither_f32(&bits24, floats, 4, &state, out, 28, &clipped) == 16 && !memcmp(out, padded, 16)
             && clipped == 1 && state == 7062582979898595269u,
         "floats with noise");
    const uint32_t nan = 0x7fc00001;
    float number;
    memcpy(&number, &nan, sizeof number);
    must(hound_dither_f32(&bits8, &number, 1, &state, out, 28, &clipped) == 1 && out[0] == 128 && clipped == 0,
         "no number with noise");
    state = clipped = 77;
    must(hound_dither_f32(&bits24, floats, 4, &state, out, 15, &clipped) == HOUND_NO_ROOM
             && hound_dither_f64(&of_floats, doubles, 13, &state, out, 28, &clipped) == HOUND_OTHER_FORMAT
             && state == 77 && clipped == 77 && out[0] == 128 && out[1] == padded[1],
         "an error takes no noise");
}

/* Floats as doubles and back: ties go to the even one, the largest are infinite from half a step above them on. */
static void widths_of_floats(void) {
    const float floats[4] = {0.1f, -0.0f, 3.4028234663852886e38f, 1.401298464324817e-45f};
    double wide[5] = {9, 9, 9, 9, 9};
    must(hound_f32_to_f64(floats, 4, wide, 5) == 4 && wide[0] == 0.10000000149011612 && signbit(wide[1]) && wide[1] == 0
             && wide[2] == 3.4028234663852886e38 && wide[3] == 1.401298464324817e-45 && wide[4] == 9,
         "floats as doubles");
    const double some[6] = {1 + 5.9604644775390625e-08, 1 + 1.7881393432617188e-07, 3.4028235677973366e38,
                            3.4028235677973362e38, HUGE_VAL, -1e-46};
    const float nearest[5] = {1, 1.00000023841857910156f, HUGE_VALF, 3.4028234663852886e38f, HUGE_VALF};
    float narrow[7] = {9, 9, 9, 9, 9, 9, 9};
    uint64_t infinite = 77;
    must(hound_f64_to_f32(some, 6, narrow, 7, &infinite) == 6 && !memcmp(narrow, nearest, sizeof nearest)
             && narrow[5] == 0 && signbit(narrow[5]) && narrow[6] == 9 && infinite == 1,
         "doubles as floats");
    must(hound_f32_to_f64(floats, 4, wide, 3) == HOUND_NO_ROOM
             && hound_f64_to_f32(some, 6, narrow, 5, &infinite) == HOUND_NO_ROOM && infinite == 1
             && wide[0] == 0.10000000149011612 && narrow[0] == 1,
         "no room for converted floats");
}

/* What has no header, and no sizes. */
static void sizes_of_none(void) {
    hound_spec spec = {44100, 2, 16, 0, HOUND_INT};
    uint8_t out[44];
    memset(out, 9, sizeof out);
    must(hound_header(&spec, 3, out, 44) == HOUND_UNFINISHED_FRAME
             && hound_sizes(&spec, 44, 3, out, 44) == HOUND_UNFINISHED_FRAME,
         "half a frame");
    must(hound_header(&spec, 2147483630, out, 44) == HOUND_TOO_LONG
             && hound_sizes(&spec, 44, 2147483630, out, 44) == HOUND_TOO_LONG,
         "past 32 bits");
    must(hound_sizes(&spec, 4294967304, 0, out, 44) == HOUND_TOO_LONG
             && hound_sizes(&spec, UINT64_MAX, 0, out, 44) == HOUND_TOO_LONG,
         "data past 4 GiB");
    must(hound_sizes(&spec, 19, 0, out, 44) == HOUND_NOT_WRITABLE, "no file has its data there");
    spec.channels = 0;
    must(hound_header(&spec, 0, out, 44) == HOUND_NOT_WRITABLE
             && hound_sizes(&spec, 44, 0, out, 44) == HOUND_NOT_WRITABLE,
         "no channel");
    must(all_are(out, 0, sizeof out, 9), "an error writes nothing");
    spec.channels = 2;
    must(hound_sizes(&spec, 4294967303, 0, out, 44) == 4294967303 && le32(out) == 4294967295 && le32(out + 4) == 0,
         "the last place of data");
}

static hound_effect effect_of(uint16_t kind, uint64_t place, uint32_t length, uint32_t bytes) {
    hound_effect effect = {place, length, kind, HOUND_PENDING, {0}};
    put32(effect.bytes, bytes);
    return effect;
}

/* The effects of a checkpoint of so much data: a sync after a write that failed, a pad byte after an odd length, a
   sync, the RIFF size, the data length, and a sync; returns how many they are. */
static int effects_of(uint64_t start, uint32_t data, int has_failed, hound_effect *out) {
    hound_effect sync = effect_of(HOUND_SYNC, 0, 0, 0), pad = effect_of(HOUND_WRITE, start + data, 1, 0);
    hound_effect riff = effect_of(HOUND_WRITE, 4, 4, (uint32_t)(start - 8 + data + data % 2)),
                 length = effect_of(HOUND_WRITE, start - 4, 4, data);
    int count = 0;
    if (has_failed) out[count++] = sync;
    if (data % 2) out[count++] = pad;
    out[count++] = sync, out[count++] = riff, out[count++] = length, out[count++] = sync;
    return count;
}

/* Whether this is what a recorder requests, also if it is asked again. */
static int requests(hound_recorder *recorder, const hound_effect *wanted) {
    for (int i = 0; i < 3; i++)
        if (hound_recorder_next(recorder) != 1 || memcmp(&recorder->effect, wanted, sizeof *wanted)) return 0;
    return 1;
}

/* Performs a checkpoint, one of whose effects may fail; it is compared with what it has to do. */
static void checkpoint(hound_recorder *recorder, uint8_t *file, int has_failed, int fails) {
    hound_effect wanted[6];
    int count = effects_of(recorder->data_start, recorder->data_length, has_failed, wanted);
    for (int i = 0; i < count; i++) {
        must(requests(recorder, &wanted[i]), "the effects of a checkpoint");
        memcpy(file + recorder->effect.place, recorder->effect.bytes, recorder->effect.length);
        recorder->effect.report = i == fails ? HOUND_FAILED : HOUND_DONE;
        if (i == fails) return;
    }
}

/* The end of what was requested. */
static void ends(hound_recorder *recorder, int32_t code, const char *what) {
    must(hound_recorder_next(recorder) == code && recorder->effect.kind == HOUND_NOTHING, what);
}

/* Begins a file: its effects are compared, and performed on this one. The header is that of a file without samples, but
   for the RIFF size, which is 0, too. */
static void begins(const hound_spec *spec, size_t start, uint8_t *file) {
    uint8_t header[HOUND_HEADER_BYTES] = {0};
    hound_effect wanted[] = {effect_of(HOUND_SYNC_FOLDER, 0, 0, 0), effect_of(HOUND_SHORTEN, 0, 0, 0),
                             effect_of(HOUND_SYNC, 0, 0, 0), effect_of(HOUND_WRITE, 0, HOUND_EFFECT_BYTES, 0),
                             effect_of(HOUND_WRITE, HOUND_EFFECT_BYTES, (uint32_t)start - HOUND_EFFECT_BYTES, 0),
                             effect_of(HOUND_NOTHING, 0, 0, 0)};
    must(hound_header(spec, 0, header, sizeof header) == (int64_t)start, "a header");
    put32(header + 4, 0);
    memcpy(wanted[3].bytes, header, HOUND_EFFECT_BYTES);
    memcpy(wanted[4].bytes, header + HOUND_EFFECT_BYTES, start - HOUND_EFFECT_BYTES);
    for (uint32_t i = 0; i < 6; i++) {
        hound_effect effect;
        memset(&effect, 9, sizeof effect);
        must(hound_beginning(spec, i, &effect) == (i < 5), "how many effects begin a file");
        must(!memcmp(&effect, &wanted[i], sizeof effect), "an effect with which a file begins");
        if (effect.kind == HOUND_WRITE) memcpy(file + effect.place, effect.bytes, effect.length);
    }
}

static void recorders(void) {
    for (int kind = 0; kind < KINDS; kind++) for (int fails = -1; fails < 6; fails++) {
        hound_spec spec = spec_of(kind, 1);
        size_t start = kinds[kind].start, width = kinds[kind].bytes;
        char type = kinds[kind].format == HOUND_FLOAT ? 'f' : 'i';
        hound_recorder recorder;
        uint8_t file[100], whole_file[100];
        memset(&recorder, 9, sizeof recorder);
        memset(file, 0, sizeof file);
        must(hound_recorder_begin(&spec, &recorder) == 0 && recorder.data_start == start && recorder.data_length == 0,
             "a recorder of a new file");
        begins(&spec, start, file);
        checkpoint(&recorder, file, 0, -1);
        ends(&recorder, 0, "nothing is requested once the header is stored");
        for (size_t n = 0, held = 0; held + n <= 4; held += n++) {
            hound_effect block = effect_of(HOUND_WRITE_BLOCK, start + held * width, (uint32_t)(n * width), 0);
            hound_effect cut = effect_of(HOUND_SHORTEN, start + held * width, 0, 0);
            must(hound_recorder_write(&recorder, n) == 0 && requests(&recorder, &block), "the place of a block");
            recorder.effect.report = HOUND_FAILED;
            must(requests(&recorder, &cut), "a block that failed is cut off");
            recorder.effect.report = n % 2 ? HOUND_FAILED : HOUND_DONE;
            ends(&recorder, HOUND_NEEDS_CHECKPOINT, "a block that failed");
            must(recorder.data_length == held * width && hound_recorder_write(&recorder, n) == 0,
                 "a block after one that failed");
            checkpoint(&recorder, file, 1, -1);
            must(requests(&recorder, &block), "a block after its checkpoint");
            if (n == 1) { /* It isn't reported, and another one is requested. */
                must(hound_recorder_write(&recorder, n) == 0 && requests(&recorder, &cut),
                     "a block that is given up is cut off");
                recorder.effect.report = HOUND_DONE;
                checkpoint(&recorder, file, 1, -1);
                must(requests(&recorder, &block), "a block after one that was given up");
            }
            int64_t length = type == 'f' ? hound_encode_f32(&spec, reals + held, n, file + start + held * width, 16)
                                         : hound_encode_i32(&spec, ints + held, n, file + start + held * width, 16);
            must(length == (int64_t)(n * width), "the bytes of a block");
            recorder.effect.report = HOUND_DONE;
            ends(&recorder, 0, "a block that was written");
            must(recorder.data_length == (held + n) * width, "a block counts");
            hound_recorder_checkpoint(&recorder);
            checkpoint(&recorder, file, 0, -1);
            ends(&recorder, 0, "the end of a checkpoint");
            length = written(type, &spec, held + n, whole_file, sizeof whole_file);
            must(length > 0 && !memcmp(file, whole_file, (size_t)length), "the file after a checkpoint");
        }
        hound_effect wanted[6];
        int count = effects_of(start, recorder.data_length, 0, wanted);
        if (fails < 0 || fails >= count) continue;
        hound_recorder_checkpoint(&recorder);
        checkpoint(&recorder, file, 0, fails);
        if (wanted[fails].kind == HOUND_WRITE) {
            ends(&recorder, HOUND_NEEDS_CHECKPOINT, "a checkpoint that failed");
            hound_recorder_checkpoint(&recorder);
            checkpoint(&recorder, file, 1, -1);
            ends(&recorder, 0, "a checkpoint after one that failed");
            continue;
        }
        for (int i = 0; i < 3; i++) ends(&recorder, HOUND_SYNC_FAILED, "a sync that failed");
        hound_recorder_checkpoint(&recorder);
        for (int i = 0; i < 3; i++) ends(&recorder, HOUND_SYNC_FAILED, "a checkpoint after a sync that failed");
        must(hound_recorder_write(&recorder, 1) == HOUND_SYNC_FAILED, "a block after a sync that failed");
    }
}

/* A block that is rejected within a checkpoint, after each of its effects, ends nothing: the rest of the checkpoint is
   requested. A block that is under way is given up. */
static void rejected_blocks(void) {
    hound_spec spec = {8000, 2, 16, 0, HOUND_INT};
    hound_effect wanted[6];
    int count = effects_of(44, 0, 0, wanted);
    for (int done = 0; done < count; done++) for (int is_reported = 0; is_reported < 2; is_reported++) {
        hound_recorder recorder;
        must(hound_recorder_begin(&spec, &recorder) == 0, "a recorder");
        for (int i = 0; i <= done; i++) {
            must(requests(&recorder, &wanted[i]), "an effect of a checkpoint");
            if (i < done || is_reported) recorder.effect.report = HOUND_DONE;
        }
        must(hound_recorder_write(&recorder, 1) == HOUND_UNFINISHED_FRAME, "half a frame within a checkpoint");
        for (int i = done + is_reported; i < count; i++) {
            must(requests(&recorder, &wanted[i]), "a checkpoint after a block that was rejected");
            must(hound_recorder_write(&recorder, UINT64_MAX - 1) == HOUND_TOO_LONG, "a block that is too long");
            must(requests(&recorder, &wanted[i]), "a checkpoint after another one");
            recorder.effect.report = HOUND_DONE;
        }
        ends(&recorder, 0, "the end of a checkpoint within which blocks were rejected");
        must(hound_recorder_write(&recorder, 2) == 0 && hound_recorder_next(&recorder) == 1
                 && recorder.effect.kind == HOUND_WRITE_BLOCK && hound_recorder_write(&recorder, 3) < 0,
             "a block, and half of one while it is written");
        ends(&recorder, 0, "a block that was given up is not requested again");
    }
}

/* A recorder never cuts off what the header counts, as a part of a frame: a repair comes before it. */
static void counted_torn_frame(void) {
    hound_spec spec = {8000, 2, 16, 0, HOUND_INT};
    uint8_t file[53];
    hound_repair_t found;
    hound_recorder recorder, before;
    must(hound_write_i16(&spec, shorts, 4, file, sizeof file) == 52, "two frames");
    put32(file + 4, 42), put32(file + 40, 6); /* as where a flush came after three samples */
    memset(&recorder, 9, sizeof recorder);
    before = recorder;
    must(hound_find_damage(file, 50, &found) == 0 && found.state == HOUND_CUT_OFF && found.counted == 1,
         "a part of a frame is counted");
    must(hound_recorder_resume(&found, HOUND_MEND, &recorder) == HOUND_UNFINISHED_FRAME
             && !memcmp(&recorder, &before, sizeof before),
         "a recorder over a part of a frame that is counted");
    must(hound_repair(file, 52, 50, &found) == 50 && hound_find_damage(file, 50, &found) == 0 && found.counted == 1,
         "its repair");
    must(hound_recorder_resume(&found, HOUND_MEND, &recorder) == 0 && recorder.data_length == 4,
         "a recorder after the repair");
    hound_recorder_checkpoint(&recorder);
    for (size_t used = 50; hound_recorder_next(&recorder) == 1; recorder.effect.report = HOUND_DONE) {
        hound_effect *effect = &recorder.effect;
        if (effect->kind == HOUND_SHORTEN && effect->place < used) used = (size_t)effect->place;
        if (effect->kind == HOUND_WRITE) memcpy(file + effect->place, effect->bytes, effect->length);
        must(44 + le32(file + 40) <= used, "the header counts what is there");
    }
    ends(&recorder, 0, "the end of that checkpoint");
}

/* What no recorder is begun for, and what has no room. */
static void no_recorders(void) {
    hound_spec spec = {44100, 2, 16, 0, HOUND_INT}, none = {44100, 2, 12, 0, HOUND_INT};
    hound_repair_t found = {{44100, 2, 16, 2, HOUND_INT}, 2, 0, HOUND_WHOLE, 58, 66, 8, 0};
    hound_recorder recorder, before;
    memset(&recorder, 9, sizeof recorder);
    before = recorder;
    must(hound_recorder_begin(&none, &recorder) == HOUND_NOT_WRITABLE, "a recorder of 12 bits");
    for (uint32_t i = 0; i < 7; i++) {
        hound_effect effect, before;
        memset(&effect, 9, sizeof effect), memset(&before, 9, sizeof before);
        must(hound_beginning(&none, i, &effect) == HOUND_NOT_WRITABLE && !memcmp(&effect, &before, sizeof effect),
             "a file of 12 bits doesn't begin");
    }
    found.data_length = 6;
    must(hound_recorder_resume(&found, 0, &recorder) == HOUND_UNFINISHED_FRAME, "a recorder after half a frame");
    found.data_length = 4294967292, found.length = UINT64_MAX;
    must(hound_recorder_resume(&found, 0, &recorder) == HOUND_TOO_LONG, "a recorder past 32 bits");
    found.data_length = 8, found.length = 65;
    must(hound_recorder_resume(&found, 3, &recorder) == HOUND_TRUNCATED, "a recorder of a file that lacks samples");
    found.length = 70, found.state = HOUND_CUT_OFF, found.frames = 3;
    must(hound_recorder_resume(&found, HOUND_OVERWRITE, &recorder) == HOUND_NEEDS_MEND,
         "a recorder over samples that aren't counted");
    found.state = HOUND_HAS_CHUNKS_AFTER_DATA;
    must(hound_recorder_resume(&found, HOUND_MEND, &recorder) == HOUND_NEEDS_OVERWRITE, "a recorder over chunks");
    found.data_start = 19;
    must(hound_recorder_resume(&found, 3, &recorder) == HOUND_NOT_WRITABLE, "no file has its data there");
    must(!memcmp(&recorder, &before, sizeof before), "an error begins no recorder");
    /* Another sample, and no pad byte. */
    hound_repair_t byte = {{44100, 1, 8, 1, HOUND_INT}, 2, 0, HOUND_CUT_OFF, 44, 46, 1, 0};
    must(hound_recorder_resume(&byte, 0, &recorder) == HOUND_NEEDS_MEND && !memcmp(&recorder, &before, sizeof before),
         "a recorder over a sample");
    found.data_start = 58, found.length = 66, found.state = HOUND_WHOLE, found.frames = 2;
    hound_effect block = effect_of(HOUND_WRITE_BLOCK, 66, 4, 0), cut = effect_of(HOUND_SHORTEN, 66, 0, 0),
                 after = effect_of(HOUND_SHORTEN, 70, 0, 0);
    must(hound_recorder_resume(&found, 0, &recorder) == 0 && hound_recorder_write(&recorder, 2) == 0
             && requests(&recorder, &block),
         "a recorder that appends");
    found.length = 76, found.state = HOUND_HAS_CHUNKS_AFTER_DATA;
    must(hound_recorder_resume(&found, HOUND_OVERWRITE, &recorder) == 0 && hound_recorder_write(&recorder, 2) == 0
             && requests(&recorder, &cut),
         "chunks are cut off");
    found.length = 71, found.state = HOUND_CUT_OFF, found.frames = 3;
    must(hound_recorder_resume(&found, HOUND_MEND, &recorder) == 0 && hound_recorder_write(&recorder, 2) == 0
             && requests(&recorder, &after),
         "a recording that was cut off is continued");
    must(hound_recorder_begin(&spec, &recorder) == 0 && hound_recorder_write(&recorder, 2147483628) == 0
             && hound_recorder_next(&recorder) == 1,
         "as many samples as 32 bits count");
    must(recorder.effect.place == 44 && recorder.effect.length == 4294967256, "the block of them");
    must(hound_recorder_begin(&spec, &recorder) == 0 && hound_recorder_write(&recorder, 2147483630) == HOUND_TOO_LONG
             && hound_recorder_write(&recorder, UINT64_MAX - 1) == HOUND_TOO_LONG, "samples past 32 bits");
    /* The RIFF size of 2^32 - 1 counts all but 8 bytes, so 4294967259 of them are data and a pad byte. */
    must(hound_recorder_frames_left(&recorder) == 4294967259 / 4, "the frames that have room");
    recorder.data_length = 4294967252;
    must(hound_recorder_frames_left(&recorder) == 1 && hound_recorder_write(&recorder, 2) == 0
             && hound_recorder_write(&recorder, 4) == HOUND_TOO_LONG,
         "the last frame that has room");
    recorder.data_length = 4294967256;
    must(hound_recorder_frames_left(&recorder) == 0, "no room");
    recorder.data_length = 0;
    must(hound_recorder_write(&recorder, 3) == HOUND_UNFINISHED_FRAME, "a torn frame");
    ends(&recorder, 0, "an error requests nothing");
    recorder.data_start = 19, hound_recorder_checkpoint(&recorder);
    must(hound_recorder_write(&recorder, 0) == HOUND_NOT_WRITABLE && hound_recorder_frames_left(&recorder) == 0,
         "a recorder that no call made");
    hound_recorder_checkpoint(&recorder),
        ends(&recorder, HOUND_NOT_WRITABLE, "a checkpoint of a recorder that no call made");
}

/* Repairs a file by its effects as by the call over all of it; and what isn't performed. */
static void repairers(void) {
    for (int kind = 0; kind < KINDS; kind++)
        for (size_t length = 0; length < 100; length++)
            for (uint32_t mode = HOUND_REPAIR; mode <= HOUND_REPAIR_TO_END; mode++) {
        hound_spec spec = spec_of(kind, 1);
        uint8_t file[101], same[101], before[101], canonical[101];
        char type = kinds[kind].format == HOUND_FLOAT ? 'f' : 'i';
        int64_t used = written(type, &spec, 4, file, sizeof file);
        if (used < 0 || length > (size_t)used) continue;
        file[4] = 0, file[kinds[kind].start - 4] = (uint8_t)(length % 3);
        memcpy(same, file, sizeof same), memcpy(before, file, sizeof before);
        hound_repair_t found, whole, looked;
        memset(&found, 7, sizeof found), memset(&whole, 7, sizeof whole), memset(&looked, 7, sizeof looked);
        int64_t by_effects = repaired(file, length, mode, &found);
        int64_t at_once =
            (mode == HOUND_REPAIR ? hound_repair : hound_repair_to_end)(same, sizeof same, length, &whole);
        must(by_effects == at_once && !memcmp(file, same, sizeof same) && !memcmp(&found, &whole, sizeof found),
             "a repair by its effects");
        must(mode == HOUND_REPAIR_TO_END || by_effects < 0 || found.state == HOUND_CUT_OFF
                 || repaired(file, length, HOUND_FIND_DAMAGE, &looked) == (int64_t)length,
             "a look by its effects");
        /* No chunk follows: a repair to the end leaves the canonical file, too. */
        memcpy(canonical, before, sizeof canonical);
        must(mode == HOUND_REPAIR || repaired(canonical, length, HOUND_MAKE_CANONICAL, &looked) == by_effects,
             "the length of a canonical file");
        must(mode == HOUND_REPAIR || !memcmp(canonical, file, sizeof file), "a canonical file by its effects");
    }
    /* The effects of a file that lacks a pad byte; each may fail. */
    static const uint16_t order[] = {HOUND_SYNC, HOUND_WRITE, HOUND_SYNC, HOUND_WRITE,
                                     HOUND_SYNC, HOUND_WRITE, HOUND_SYNC};
    static const uint64_t places[] = {0, 4, 0, 40, 0, 47, 0};
    for (int fails = 0; fails < 8; fails++) {
        hound_spec spec = {44100, 1, 8, 1, HOUND_INT};
        int16_t three[3] = {1, 2, 3};
        uint8_t file[48];
        hound_repair_t found;
        hound_repairer repairer;
        must(hound_write_i16(&spec, three, 3, file, sizeof file) == 48, "three samples");
        file[4] = file[40] = 0;
        hound_repairer_begin(47, HOUND_REPAIR, &repairer);
        while (hound_repairer_next(&repairer, &found) == 1 && repairer.effect.kind == HOUND_READ)
            read_part(file, 47, &repairer.effect);
        for (int i = 0; i < 7; i++) {
            must(hound_repairer_next(&repairer, &found) == 1 && repairer.effect.kind == order[i]
                     && repairer.effect.place == places[i],
                 "the effects of a repair");
            repairer.effect.report = i == fails ? HOUND_FAILED : HOUND_DONE;
            if (i == fails) break;
            must(hound_repairer_next(&repairer, &found) == (i < 6), "the next effect of a repair");
        }
        for (int i = 0; i < 2 && fails < 7; i++)
            must(hound_repairer_next(&repairer, &found)
                     == (order[fails] == HOUND_SYNC ? HOUND_SYNC_FAILED : HOUND_NOT_PERFORMED),
                 "a repair after an effect that failed");
    }
}

/* A chunk that keeps the data length within one sector, where it would lie across two. */
static void fillers(void) {
    for (uint64_t start = 20; start < 2000; start++) {
        static const uint8_t junk[HOUND_FILLER_BYTES] = {'J', 'U', 'N', 'K', 2, 0, 0, 0, 0, 0};
        uint8_t out[HOUND_FILLER_BYTES + 1], before[sizeof out];
        int is_across = start % 512 == 1 || start % 512 == 2 || start % 512 == 3;
        if (start < 512) is_across = 0;
        memset(out, 9, sizeof out), memset(before, 9, sizeof before);
        must(hound_filler(start, out, 9) == (is_across ? HOUND_NO_ROOM : 0) && !memcmp(out, before, sizeof out),
             "a filler without room");
        must(hound_filler(start, out, sizeof out) == (is_across ? HOUND_FILLER_BYTES : 0) && out[10] == 9
                 && !memcmp(out, is_across ? junk : before, sizeof junk),
             "a filler");
    }
}

/* Both sizes are right, and less than a frame follows: a recorder cuts off only bytes of a torn frame without leave. */
static void short_rests(void) {
    static const struct { const char *bytes; uint32_t length, state; int32_t code; } rests[] = {
        {"TAG", 128, HOUND_HAS_CHUNKS_AFTER_DATA, HOUND_NEEDS_OVERWRITE},
        {"LIST\4\0\0\0INFO", 12, HOUND_HAS_CHUNKS_AFTER_DATA, HOUND_NEEDS_OVERWRITE},
        {"abcd\4\0\0\0INFO", 12, HOUND_HAS_CHUNKS_AFTER_DATA, HOUND_NEEDS_OVERWRITE},
        {"\1\2\3", 100, HOUND_WHOLE, 0},
    };
    static uint8_t file[300 + 128];
    static const int32_t frame[64];
    hound_spec spec = {48000, 64, 24, 0, HOUND_INT};
    for (size_t i = 0; i < sizeof rests / sizeof *rests; i++) {
        hound_repair_t found;
        hound_recorder recorder;
        hound_effect cut;
        int64_t length = hound_write_i32(&spec, frame, 64, file, sizeof file);
        must(length == 68 + 64 * 3, "a frame of 64 channels");
        memset(file + length, 'A', 128);
        memcpy(file + length, rests[i].bytes, rests[i].length == 12 ? 12 : strlen(rests[i].bytes));
        must(repaired(file, (size_t)length + rests[i].length, HOUND_FIND_DAMAGE, &found)
                     == length + (int64_t)rests[i].length
                 && found.state == rests[i].state && found.frames == 1,
             "what less than a frame after the data is");
        must(hound_recorder_resume(&found, 0, &recorder) == rests[i].code, "a recorder without leave");
        if (rests[i].code < 0) continue;
        cut = effect_of(HOUND_SHORTEN, (uint64_t)length, 0, 0);
        must(found.left_over == rests[i].length && hound_recorder_write(&recorder, 64) == 0
                 && requests(&recorder, &cut),
             "a torn frame is cut off");
    }
}

/* A repair that was stopped before the pad byte leaves a file of which all is counted; the canonical form has it. */
static void missing_pad_byte(void) {
    hound_spec spec = {44100, 1, 8, 1, HOUND_INT};
    int16_t three[3] = {1, 2, 3};
    uint8_t whole[48], file[48];
    hound_repair_t found;
    must(hound_write_i16(&spec, three, 3, whole, sizeof whole) == 48, "three samples");
    memcpy(file, whole, 47), file[47] = 9;
    must(repaired(file, 47, HOUND_REPAIR, &found) == 47 && found.state == HOUND_ALL_COUNTED && found.frames == 3,
         "a repair leaves a file whose pad byte is missing");
    must(repaired(file, 47, HOUND_MAKE_CANONICAL, &found) == 48 && found.state == HOUND_ALL_COUNTED
             && !memcmp(file, whole, sizeof whole),
         "the pad byte of a canonical file");
    must(repaired(file, 48, HOUND_MAKE_CANONICAL, &found) == 48 && found.state == HOUND_WHOLE, "the file is whole");
}

/* A repairer to which fewer bytes are handed in than the file has of a part finds nothing, and writes nothing. */
static void short_reads(void) {
    hound_spec spec = {44100, 2, 16, 0, HOUND_INT};
    int16_t samples[40] = {0};
    uint8_t file[44 + 80 + 20];
    must(hound_write_i16(&spec, samples, 40, file, sizeof file) == 124, "twenty frames");
    memcpy(file + 124, "LIST\14\0\0\0INFOINAM....", 20);
    put32(file + 4, 7);
    for (int part = 0, parts = 1; part < parts; part++)
        for (uint32_t given = 0; given < HOUND_EFFECT_BYTES; given++) {
            hound_repairer repairer;
            hound_repair_t found;
            int32_t code;
            uint32_t asked = HOUND_EFFECT_BYTES;
            int number = 0;
            hound_repairer_begin(sizeof file, HOUND_REPAIR, &repairer);
            while ((code = hound_repairer_next(&repairer, &found)) == 1) {
                must(repairer.effect.kind == HOUND_READ, "nothing is written where chunks follow");
                read_part(file, sizeof file, &repairer.effect);
                if (number++ == part && given < repairer.effect.length)
                    asked = repairer.effect.length, repairer.effect.length = given;
            }
            must(code == (given < asked && asked < HOUND_EFFECT_BYTES ? HOUND_ENDED : 0), "a part that was read short");
            if (code == 0) must(found.state == HOUND_HAS_CHUNKS_AFTER_DATA, "chunks follow");
            if (number > parts) parts = number;
        }
}

/* A repairer of a file that has grown since requests no part of the header after the length that it was given. */
static void grown_file(void) {
    uint8_t file[12 + 8 * 100];
    memcpy(file, "RIFF....WAVE", 12);
    for (size_t at = 12; at < sizeof file; at += 8) memcpy(file + at, "junk\0\0\0\0", 8);
    for (uint64_t length = 0; length < 100; length++) {
        hound_repairer repairer;
        hound_repair_t found;
        int32_t code;
        hound_repairer_begin(length, HOUND_FIND_DAMAGE, &repairer);
        while ((code = hound_repairer_next(&repairer, &found)) == 1) {
            must(repairer.effect.kind == HOUND_READ && repairer.effect.place <= length, "a part after the end");
            read_part(file, sizeof file, &repairer.effect);
        }
        must(code == HOUND_ENDED, "a header of which more was read than the file has");
    }
}

static void floats(void) {
    hound_spec spec = {48000, 1, 32, 0, HOUND_FLOAT};
    uint32_t patterns[3] = {0x7fc12345, 0x80000000, 1}, back[3];
    float samples[3], again[3];
    memcpy(samples, patterns, sizeof samples);
    uint8_t out[92];
    must(hound_write_f32(&spec, samples, 2, out, 92) == 76 && hound_append_f32(out, 92, 76, samples + 2, 1) == 80,
         "floats");
    must(hound_read_f32(out, 80, 0, again, 3) == 3, "reading floats");
    memcpy(back, again, sizeof back);
    must(!memcmp(back, patterns, sizeof back), "each pattern stays");
    must(hound_encode_f32(&spec, samples, 3, out, 12) == 12 && hound_decode_f32(&spec, out, 12, again, 3) == 3,
         "coding floats");
    must(!memcmp(again, samples, sizeof again), "coded floats");
}

static void repairs(void) {
    uint8_t *file = copy(four, 51);
    hound_repair_t found;
    must(hound_find_damage(file, 51, &found) == 0 && !memcmp(file, four, 51), "looking for damage changes nothing");
    must(found.state == HOUND_CUT_OFF && found.frames == 3 && found.left_over == 1 && found.counted == 4, "the damage");
    must(hound_repair(file, 51, 51, &found) == 51, "repair");
    must(found.state == HOUND_CUT_OFF && found.frames == 3 && found.left_over == 1, "what was found");
    must(file[4] == 42 && file[40] == 6 && !memcmp(file + 44, four + 44, 7), "the sizes, and nothing else");
    must(hound_repair(file, 51, 51, &found) == 51 && found.state == HOUND_WHOLE, "a second repair");
    free(file);
    hound_spec spec = {44100, 1, 8, 0, HOUND_INT};
    uint8_t odd[46];
    must(hound_write_i16(&spec, shorts, 1, odd, 46) == 46, "a byte and its pad byte");
    odd[45] = 7;
    odd[4] = 37; /* as a program writes it that writes no pad byte */
    must(hound_find_damage(odd, 45, &found) == 0 && found.state == HOUND_ALL_COUNTED && found.frames == 1,
         "a pad byte is missing, and no sample");
    must(hound_repair(odd, 45, 45, &found) == 45 && odd[4] == 37, "a file without a pad byte stays");
    must(hound_repair_to_end(odd, 45, 45, &found) == HOUND_NO_ROOM && odd[4] == 37, "no room for its pad byte");
    must(hound_repair_to_end(odd, 46, 45, &found) == 46 && found.state == HOUND_ALL_COUNTED && odd[45] == 0
             && odd[4] == 38,
         "a pad byte by a repair to the end");
    odd[4] = odd[40] = 0;
    odd[45] = 7;
    must(hound_find_damage(odd, 45, &found) == 0 && found.state == HOUND_CUT_OFF && found.frames == 1
             && found.counted == 0,
         "a sample isn't counted, and a pad byte is missing");
    memset(&found, 7, sizeof found);
    must(hound_find_damage(odd, 43, &found) == HOUND_ENDED
             && hound_find_damage(four + 1, 51, &found) == HOUND_NO_RIFF_TAG,
         "no file");
    must(found.frames == 0x07070707 && found.state == 0x07070707, "what an error reports");
    must(hound_repair(odd, 45, 45, &found) == HOUND_NO_ROOM && odd[4] == 0, "no room for a pad byte");
    must(hound_repair(odd, 46, 45, &found) == 46 && odd[45] == 0 && odd[4] == 38, "a pad byte");
}

/* Files that a chunk follows, which a repair to the end takes for samples: its 12 bytes are six more of 16 bits; of 8
   bits 11 are an odd number. */
static void repairs_to_the_end(void) {
    static const uint8_t chunk[12] = {'L', 'I', 'S', 'T', 4, 0, 0, 0, 'I', 'N', 'F', 'O'};
    uint8_t file[64], before[64];
    hound_repair_t found;
    memcpy(before, four, 52);
    memcpy(before + 52, chunk, sizeof chunk);
    memcpy(file, before, sizeof file);
    must(hound_repair(file, 64, 64, &found) == 64 && !memcmp(file, before, 64), "a file that a chunk follows stays");
    must(found.state == HOUND_HAS_CHUNKS_AFTER_DATA && found.frames == 4 && found.left_over == 0,
         "a chunk after the data");
    must(hound_repair_to_end(file, 64, 64, &found) == 64 && !memcmp(file + 44, before + 44, 20),
         "a chunk is taken for samples");
    must(found.state == HOUND_CUT_OFF && found.frames == 10 && found.left_over == 0 && found.spec.bytes_per_sample == 2,
         "what a repair to the end finds");
    whole(file, 64, 44, 20, "a file that was repaired to the end");
    must(hound_repair_to_end(file, 64, 64, &found) == 64 && found.state == HOUND_WHOLE, "a second repair to the end");
    file[22] = 2, file[32] = 4, put32(file + 28, 4 * 44100); /* two channels, and frames of four bytes */
    must(hound_repair_to_end(file, 64, 63, &found) == 63 && found.frames == 4 && found.left_over == 3,
         "a torn frame at the end");

    hound_spec spec = {44100, 1, 8, 0, HOUND_INT};
    must(hound_write_i16(&spec, shorts, 1, before, 64) == 46, "a byte and its pad byte");
    must(hound_repair_to_end(before, 46, 46, &found) == 46 && found.state == HOUND_WHOLE && found.frames == 1,
         "a pad byte is no sample");
    memcpy(before + 45, chunk, 10);
    memcpy(file, before, sizeof file);
    memset(&found, 7, sizeof found);
    must(hound_repair_to_end(file, 55, 55, &found) == HOUND_NO_ROOM, "a repair to the end without room for a pad byte");
    must(hound_repair_to_end(file, 55, 56, &found) == HOUND_NO_ROOM,
         "a repair to the end where more is used than there is");
    must(hound_repair_to_end(file, 55, 43, &found) == HOUND_ENDED, "a repair to the end of a cut header");
    file[32] = 6, file[34] = 48, put32(file + 28, 6 * 44100); /* bits, in six bytes */
    must(hound_repair_to_end(file, 64, 55, &found) == HOUND_NOT_WRITABLE, "a repair to the end of 48 bits");
    file[32] = 1, file[34] = 8, put32(file + 28, 44100);
    must(!memcmp(file, before, 64) && found.state == 0x07070707 && found.frames == 0x07070707,
         "an error of a repair to the end changes nothing");
    must(hound_repair_to_end(file, 64, 55, &found) == 56 && found.frames == 11, "a repair to the end of odd data");
    whole(file, 56, 44, 11, "odd data that were repaired to the end");
}

#if SIZE_MAX > 0xffffffff
/* The RIFF size counts all bytes but the first 8, in 32 bits: files of the most samples, of one more, and of two more
   than there are. */
static void sizes_of_32_bits(char type, int kind, uint8_t *file, const void *silence, size_t room) {
    hound_spec spec = spec_of(kind, 1);
    size_t start = kinds[kind].start, width = kinds[kind].bytes;
    uint64_t most = (UINT32_MAX + (uint64_t)8 - start) / width, length = start + most * width;
    must(hound_size(&spec, most) == (int64_t)length && hound_size(&spec, most + 1) == HOUND_TOO_LONG,
         "the longest file");
    must(hound_size(&spec, (uint64_t)1 << 32) == HOUND_TOO_LONG && hound_size(&spec, UINT64_MAX) == HOUND_TOO_LONG,
         "more samples than 32 bits count");
    int64_t code = type == 'h'   ? hound_write_i16(&spec, silence, most + 1, file, room)
                   : type == 'i' ? hound_write_i32(&spec, silence, most + 1, file, room)
                                 : hound_write_f32(&spec, silence, most + 1, file, room);
    must(code == HOUND_TOO_LONG && file[0] == 0, "writing more than 32 bits count");
    must(written(type, &spec, 0, file, room) == (int64_t)start, "a file to append to");
    put32(file + start - 4, (uint32_t)((most - 1) * width));
    must(appended(type, file, room, length - width, 0, 2) == HOUND_TOO_LONG, "two samples where one has room");
    must(le32(file + 4) == start - 8 && all_are(file, (int64_t)(length - width), room, 0),
         "sizes past 32 bits change nothing");
    whole(file, appended(type, file, room, length - width, 1, 1), start, most * width,
          "the last sample of the longest file");
    must(appended(type, file, room, length, 0, 1) == HOUND_TOO_LONG, "a sample after the longest file");
    int32_t back[2] = {0, 9};
    if (type != 'f')
        must(hound_read_i32(file, length, most - 1, back, 2) == 1 && back[0] == -3 && back[1] == 9,
             "the last sample, read");
    memset(file, 0, start);
    memset(file + length - width, 0, width);
}
#endif

static void long_files(void) {
    hound_spec bytes = spec_of(0, 1); /* of one byte, and a pad byte after an odd number of them */
    must(hound_size(&bytes, 4294967258) == 4294967302 && hound_size(&bytes, 4294967259) == HOUND_TOO_LONG,
         "the longest file of 8 bits");
#if SIZE_MAX > 0xffffffff
    size_t room = ((size_t)1 << 32) + 4096;
    uint8_t *file = mmap(NULL, room, PROT_READ | PROT_WRITE, MAP_PRIVATE | MAP_ANONYMOUS | MAP_NORESERVE, -1, 0);
    void *silence = mmap(NULL, room, PROT_READ, MAP_PRIVATE | MAP_ANONYMOUS | MAP_NORESERVE, -1, 0);
    if (file == MAP_FAILED || silence == MAP_FAILED) {
        puts("calls: passed over, since twice 4 GiB can't be mapped here: files of that length");
        return;
    }
    sizes_of_32_bits('h', 1, file, silence, room);
    sizes_of_32_bits('i', 4, file, silence, room);
    sizes_of_32_bits('f', 5, file, silence, room);
    hound_repair_t found;
    must(written('h', &bytes, 0, file, room) == 44, "a file of no samples");
    must(hound_repair(file, room, room, &found) == HOUND_TOO_LONG
             && hound_repair_to_end(file, room, room, &found) == HOUND_TOO_LONG,
         "a repair past 32 bits");
    must(hound_repair_to_end(file, room, 4294967303, &found) == HOUND_TOO_LONG
             && hound_repair_to_end(file, room, 4294967302, &found) == 4294967302,
         "the longest file that is repaired");
    munmap(file, room);
    munmap(silence, room);
#endif
}

/* Files by their first bytes. The numbers of formats are those of mmreg.h. */
static void names_of_kinds(void) {
    static const struct { const char *tag; int32_t kind; } tags[] = {
        {"RIFX", HOUND_KIND_RIFX}, {"RF64", HOUND_KIND_RF64}, {"BW64", HOUND_KIND_BW64}, {"riff", HOUND_KIND_W64},
        {"FORM", HOUND_KIND_AIFF}, {"fLaC", HOUND_KIND_FLAC}, {"OggS", HOUND_KIND_OGG},  {"ID3\3", HOUND_KIND_MPEG},
        {"\xff\xfb\x90\x64", HOUND_KIND_MPEG}, {"\0\0\0\0", HOUND_KIND_UNKNOWN}, {"text", HOUND_KIND_UNKNOWN}};
    static const struct { uint16_t format; const char *name; } formats[] = {
        {1, NULL}, {2, "Microsoft ADPCM"}, {3, NULL}, {6, "A-law"}, {7, "mu-law"}, {17, "IMA ADPCM"},
        {34, "TrueSpeech"}, {49, "GSM 6.10"}, {64, "G.721 ADPCM"}, {80, "MPEG"}, {85, "MP3"}, {0x2000, "AC-3"},
        {999, NULL}};
    uint8_t *file = copy(four, 52), *extended = copy(one, 72);
    must(hound_kind(file, 52) == 1 && hound_kind(extended, 72) == 1, "PCM, also by its subformat");
    for (size_t i = 0; i < sizeof formats / sizeof *formats; i++) {
        uint16_t format = formats[i].format;
        const char *name = hound_kind_text(format);
        file[20] = extended[44] = (uint8_t)format, file[21] = extended[45] = (uint8_t)(format >> 8);
        must(hound_kind(file, 52) == format && hound_kind(extended, 72) == format, "a format");
        must(formats[i].name ? name && !strcmp(name, formats[i].name) : !name, "its name");
    }
    file[20] = 3, file[21] = 0, file[34] = 64;
    must(hound_kind(file, 52) == HOUND_KIND_FLOAT64, "floats of 64 bits");
    must(hound_kind(file, 35) == HOUND_KIND_UNKNOWN && hound_kind(file, 36) == HOUND_KIND_FLOAT64, "a cut fmt chunk");
    for (size_t i = 0; i < sizeof tags / sizeof *tags; i++) {
        memcpy(file, tags[i].tag, 4), memset(file + 12, 0, 4);
        must(hound_kind(file, 52) == tags[i].kind && hound_kind(file, 4) == tags[i].kind, "a tag");
        must(hound_kind(file, 3) == HOUND_KIND_UNKNOWN && hound_kind(file, 0) == HOUND_KIND_UNKNOWN, "a cut tag");
        must((tags[i].kind == HOUND_KIND_UNKNOWN) == !hound_kind_text(tags[i].kind), "the name of a tag's kind");
    }
    free(file), free(extended);
}

static void texts(void) {
    char version[40];
    sprintf(version, "%d.%d.%d", HOUND_VERSION_MAJOR, HOUND_VERSION_MINOR, HOUND_VERSION_PATCH);
    must(!strcmp(version, HOUND_VERSION), "the version");
    sprintf(version, "%d.%d.%d", hound_version() >> 16, hound_version() >> 8 & 255, hound_version() & 255);
    must(!strcmp(version, HOUND_VERSION) && hound_version() == HOUND_VERSION_NUMBER, "the version of the library");
    for (int code = 0; code >= HOUND_NOT_PERFORMED; code--) {
        must(strcmp(hound_error_text(code), "unknown error") != 0, "a text for each error");
        for (int other = 0; other > code; other--)
            must(strcmp(hound_error_text(code), hound_error_text(other)) != 0, "a text of its own for each error");
    }
    must(!strcmp(hound_error_text(HOUND_NOT_PERFORMED - 1), "unknown error"), "no further error");
}

int main(void) {
    reads();
    fmt_chunks();
    writes();
    files_of_each_kind();
    errors_of_files();
    walks();
    streams();
    followers();
    reads_of_followers();
    headers_of_followers();
    torn_lengths();
    followers_of_any_bytes();
    eight_bits();
    values();
    containers_of();
    scales();
    scales_of_doubles();
    dithers();
    widths_of_floats();
    sizes_of_none();
    recorders();
    rejected_blocks();
    counted_torn_frame();
    no_recorders();
    repairers();
    fillers();
    short_rests();
    missing_pad_byte();
    short_reads();
    grown_file();
    floats();
    repairs();
    repairs_to_the_end();
    long_files();
    names_of_kinds();
    texts();
    puts("calls: each call returned what it must");
    return 0;
}
