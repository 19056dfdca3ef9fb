/* Blocks of 4096 samples between a file in memory and an array, by hound_c and by libsndfile's virtual
   files: nanoseconds for a sample, the least of 15 rounds in turn.   bench */
#include "hound.h"
#include <sndfile.h>
#include <stdio.h>
#include <stdlib.h>
#include <string.h>
#include <time.h>

enum { BLOCK = 4096, BLOCKS = 512, ALL = BLOCK * BLOCKS, ROUNDS = 15 };

typedef struct { uint8_t *bytes; sf_count_t length, capacity, place; } memory;
static sf_count_t m_length(void *m) { return ((memory *)m)->length; }
static sf_count_t m_tell(void *m) { return ((memory *)m)->place; }
static sf_count_t m_seek(sf_count_t by, int from, void *m) {
    memory *x = m;
    return x->place = by + (from == SEEK_CUR ? x->place : from == SEEK_END ? x->length : 0);
}
static sf_count_t m_read(void *to, sf_count_t n, void *m) {
    memory *x = m;
    if (n > x->length - x->place) n = x->length - x->place;
    memcpy(to, x->bytes + x->place, (size_t)n);
    x->place += n;
    return n;
}
static sf_count_t m_write(const void *from, sf_count_t n, void *m) {
    memory *x = m;
    if (n > x->capacity - x->place) n = x->capacity - x->place;
    memcpy(x->bytes + x->place, from, (size_t)n);
    x->place += n;
    if (x->place > x->length) x->length = x->place;
    return n;
}
static SF_VIRTUAL_IO io = {m_length, m_seek, m_read, m_write, m_tell};

static double now(void) {
    struct timespec t;
    clock_gettime(CLOCK_MONOTONIC, &t);
    return t.tv_sec * 1e9 + t.tv_nsec;
}
static void must(int holds, const char *what) {
    if (!holds) {
        fprintf(stderr, "bench: %s\n", what);
        exit(1);
    }
}

static int16_t shorts[ALL], shorts_back[ALL];
static int32_t ints[ALL], ints_back[ALL];
static float floats[ALL], floats_back[ALL];
static uint8_t file[4 * ALL + 4096], other[4 * ALL + 4096];

/* One round of a case: 'h' i16, 'i' i32, 'f' f32; bits of the file; reading, writing whole, or appending blocks. */
static double ours(char kind, int bits, char how, size_t length) {
    hound_spec spec = {44100, 2, (uint16_t)bits, 0, kind == 'f'};
    double start = now();
    if (how == 'd') { /* the header walked over once */
        hound_info_t info;
        must(hound_info(file, length, &info) == 0, "the header");
        size_t size = BLOCK * (size_t)info.spec.bytes_per_sample;
        for (int b = 0; b < BLOCKS; b++) {
            const uint8_t *at = file + info.data_start + (size_t)b * size;
            int64_t n = kind == 'h'   ? hound_decode_i16(&info.spec, at, size, shorts_back + b * BLOCK, BLOCK)
                        : kind == 'i' ? hound_decode_i32(&info.spec, at, size, ints_back + b * BLOCK, BLOCK)
                                      : hound_decode_f32(&info.spec, at, size, floats_back + b * BLOCK, BLOCK);
            must(n == BLOCK, "decoding");
        }
    } else if (how == 'r') {
        for (int b = 0; b < BLOCKS; b++) {
            uint64_t first = (uint64_t)b * BLOCK;
            int64_t n = kind == 'h'   ? hound_read_i16(file, length, first, shorts_back + first, BLOCK)
                        : kind == 'i' ? hound_read_i32(file, length, first, ints_back + first, BLOCK)
                                      : hound_read_f32(file, length, first, floats_back + first, BLOCK);
            must(n == BLOCK, "reading");
        }
    } else if (how == 'w') {
        int64_t n = kind == 'h'   ? hound_write_i16(&spec, shorts, ALL, file, sizeof file)
                    : kind == 'i' ? hound_write_i32(&spec, ints, ALL, file, sizeof file)
                                  : hound_write_f32(&spec, floats, ALL, file, sizeof file);
        must(n == (int64_t)length, "writing");
    } else {
        int64_t n = kind == 'f' ? hound_write_f32(&spec, floats, 0, file, sizeof file)
                                : hound_write_i32(&spec, ints, 0, file, sizeof file);
        for (int b = 0; b < BLOCKS; b++) {
            n = kind == 'h'   ? hound_append_i16(file, sizeof file, (size_t)n, shorts + b * BLOCK, BLOCK)
                : kind == 'i' ? hound_append_i32(file, sizeof file, (size_t)n, ints + b * BLOCK, BLOCK)
                              : hound_append_f32(file, sizeof file, (size_t)n, floats + b * BLOCK, BLOCK);
            must(n > 0, "appending");
        }
        must(n == (int64_t)length, "all appended");
    }
    return (now() - start) / ALL;
}

static double theirs(char kind, int bits, char how, size_t length) {
    int from_file = how == 'r' || how == 'd';
    memory m = {from_file ? file : other, from_file ? (sf_count_t)length : 0, sizeof other, 0};
    int format = kind == 'f'  ? SF_FORMAT_FLOAT
                 : bits == 8  ? SF_FORMAT_PCM_U8
                 : bits == 16 ? SF_FORMAT_PCM_16
                 : bits == 24 ? SF_FORMAT_PCM_24
                              : SF_FORMAT_PCM_32;
    format |= bits > 16 || kind == 'f' ? SF_FORMAT_WAVEX : SF_FORMAT_WAV;
    SF_INFO info = {.samplerate = 44100, .channels = 2, .format = format};
    if (from_file) info = (SF_INFO){0};
    double start = now();
    SNDFILE *f = sf_open_virtual(&io, from_file ? SFM_READ : SFM_WRITE, &info, &m);
    must(f != NULL, "libsndfile opens");
    for (int b = 0; b < BLOCKS; b++) {
        sf_count_t n;
        if (from_file)
            n = kind == 'h'   ? sf_read_short(f, shorts_back + b * BLOCK, BLOCK)
                : kind == 'i' ? sf_read_int(f, ints_back + b * BLOCK, BLOCK)
                              : sf_read_float(f, floats_back + b * BLOCK, BLOCK);
        else
            n = kind == 'h'   ? sf_write_short(f, shorts + b * BLOCK, BLOCK)
                : kind == 'i' ? sf_write_int(f, ints + b * BLOCK, BLOCK)
                              : sf_write_float(f, floats + b * BLOCK, BLOCK);
        must(n == BLOCK, "libsndfile's block");
        if (how == 'a') {
            sf_command(f, SFC_UPDATE_HEADER_NOW, NULL, 0);
        }
    }
    sf_close(f);
    return (now() - start) / ALL;
}

int main(void) {
    struct { char kind; int bits; } cases[] = {{'h', 16}, {'h', 8}, {'i', 16}, {'i', 24}, {'i', 32}, {'f', 32}};
    printf("%-26s %8s %11s %7s\n", "blocks of 4096", "hound_c", "libsndfile", "ratio");
    for (size_t k = 0; k < sizeof cases / sizeof *cases; k++) {
        char kind = cases[k].kind;
        int bits = cases[k].bits;
        uint32_t state = 1;
        for (int i = 0; i < ALL; i++) {
            state = state * 1664525u + 1013904223u;
            shorts[i] = (int16_t)((int32_t)state >> (bits < 16 ? 32 - bits : 16));
            ints[i] = (int32_t)state >> (32 - bits);
            floats[i] = (int32_t)state / 2147483648.0f;
        }
        hound_spec spec = {44100, 2, (uint16_t)bits, 0, kind == 'f'};
        size_t length = (size_t)hound_size(&spec, ALL);
        for (const char *how = "rdwa"; *how; how++) {
            double best[2] = {1e9, 1e9};
            ours(kind, bits, 'w', length);
            for (int r = 0; r < ROUNDS; r++) {
                double a = ours(kind, bits, *how, length), b = theirs(kind, bits, *how, length);
                if (a < best[0]) best[0] = a;
                if (b < best[1]) best[1] = b;
            }
            const char *type = kind == 'h' ? "i16" : kind == 'i' ? "i32" : "f32";
            const char *direction = *how == 'r' || *how == 'd' ? "from" : "to";
            const char *done = *how == 'r' ? "read" : *how == 'd' ? "decoded" : *how == 'w' ? "written" : "appended";
            printf("%s %s %2d bits, %-8s %9.3f %11.3f %7.2f\n", type, direction, bits, done, best[0], best[1],
                   best[0] / best[1]);
        }
        ours(kind, bits, 'r', length);
        must(kind == 'h'   ? !memcmp(shorts, shorts_back, sizeof shorts)
             : kind == 'i' ? !memcmp(ints, ints_back, sizeof ints)
                           : !memcmp(floats, floats_back, sizeof floats),
             "what is read");
    }
    return 0;
}
