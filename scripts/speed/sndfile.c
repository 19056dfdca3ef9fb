/* The cases of blocks of `bench` in crates/hound_examples over libsndfile, in the same words: CASE N FILE. It
   prints the same line. Its sums over samples that were read agree with the others' (samples of 8
   bits are read as `short`, and come with 8 more low bits); those over written bytes are 0, since
   libsndfile writes another header for some formats. */
#include <sndfile.h>
#include <stdint.h>
#include <stdio.h>
#include <stdlib.h>
#include <string.h>
#include <time.h>

static uint64_t now(void) {
    struct timespec t;
    clock_gettime(CLOCK_MONOTONIC, &t);
    return t.tv_sec * 1000000000ull + t.tv_nsec;
}

static uint32_t mixed(uint32_t index) { return index * 2654435761u; }

typedef struct {
    unsigned char *bytes;
    sf_count_t length, capacity, place;
} Memory;

static sf_count_t length_of(void *user) { return ((Memory *)user)->length; }

static sf_count_t seek_to(sf_count_t offset, int whence, void *user) {
    Memory *m = user;
    m->place = offset + (whence == SEEK_SET ? 0 : whence == SEEK_CUR ? m->place : m->length);
    return m->place;
}

static sf_count_t read_some(void *out, sf_count_t count, void *user) {
    Memory *m = user;
    if (count > m->length - m->place)
        count = m->length - m->place;
    memcpy(out, m->bytes + m->place, count);
    m->place += count;
    return count;
}

static sf_count_t write_some(const void *from, sf_count_t count, void *user) {
    Memory *m = user;
    if (count > m->capacity - m->place)
        count = m->capacity - m->place;
    memcpy(m->bytes + m->place, from, count);
    m->place += count;
    if (m->place > m->length)
        m->length = m->place;
    return count;
}

static sf_count_t tell_place(void *user) { return ((Memory *)user)->place; }

static SF_VIRTUAL_IO memory_calls = {length_of, seek_to, read_some, write_some, tell_place};

static SNDFILE *open_one(const char *path, Memory *memory, int mode, SF_INFO *info) {
    SNDFILE *file = path ? sf_open(path, mode, info) : sf_open_virtual(&memory_calls, mode, info, memory);
    if (!file) {
        fprintf(stderr, "%s\n", sf_strerror(0));
        exit(1);
    }
    return file;
}

int main(int count_of_words, char **words) {
    if (count_of_words != 4)
        return 2;
    /* read_block_i16_mem, write_block_64_i16_file and so on */
    int writes = !strncmp(words[1], "write_block_", 12);
    if (!writes && strncmp(words[1], "read_block_", 11))
        return 2;
    const char *rest = words[1] + (writes ? 12 : 11);
    long block = 4096;
    if (rest[0] >= '0' && rest[0] <= '9') {
        block = strtol(rest, (char **)&rest, 10);
        rest++;
    }
    int floats = rest[0] == 'f';
    int bits = atoi(rest + 1);
    int width = bits / 8;
    const char *path = strstr(rest, "_file") ? words[3] : NULL;
    long count = atol(words[2]);

    SF_INFO info = {0};
    info.samplerate = 44100;
    info.channels = 1;
    info.format = SF_FORMAT_WAV
                  | (floats       ? SF_FORMAT_FLOAT
                     : bits == 8  ? SF_FORMAT_PCM_U8
                     : bits == 16 ? SF_FORMAT_PCM_16
                     : bits == 24 ? SF_FORMAT_PCM_24
                                  : SF_FORMAT_PCM_32);
    Memory memory = {malloc(count * width + 4096), 0, count * width + 4096, 0};
    memset(memory.bytes, 1, memory.capacity);
    short *shorts = malloc(count * sizeof *shorts);
    int *ints = malloc(count * sizeof *ints);
    float *numbers = malloc(count * sizeof *numbers);
    for (long index = 0; index < count; index++) {
        uint32_t pattern = mixed(index) & 0xbfffffff;
        shorts[index] = (short)(mixed(index) >> 16);
        ints[index] = (int)mixed(index);
        memcpy(&numbers[index], &pattern, 4);
    }
    if (path)
        remove(path);

    uint64_t start = now();
    SNDFILE *file = open_one(path, &memory, SFM_WRITE, &info);
    for (long first = 0; first < count; first += block) {
        long length = count - first < block ? count - first : block;
        sf_count_t done = floats ? sf_write_float(file, numbers + first, length)
                        : width <= 2 ? sf_write_short(file, shorts + first, length)
                                     : sf_write_int(file, ints + first, length);
        if (done != length)
            return 1;
    }
    sf_close(file);
    uint64_t end = now();
    if (writes) {
        printf("%s %ld 0 %llu 0\n", words[1], count, (unsigned long long)(end - start));
        return 0;
    }

    memory.place = 0;
    memset(&info, 0, sizeof info);
    int64_t sum = 0;
    long got;
    start = now();
    file = open_one(path, &memory, SFM_READ, &info);
    do {
        if (floats) {
            got = sf_read_float(file, numbers, block);
            for (long index = 0; index < got; index++) {
                uint32_t pattern;
                memcpy(&pattern, &numbers[index], 4);
                sum += pattern;
            }
        } else if (width <= 2) {
            got = sf_read_short(file, shorts, block);
            for (long index = 0; index < got; index++)
                sum += shorts[index];
        } else {
            got = sf_read_int(file, ints, block);
            for (long index = 0; index < got; index++)
                sum += ints[index];
        }
    } while (got > 0);
    sf_close(file);
    end = now();
    printf("%s %ld 0 %llu %lld\n", words[1], count, (unsigned long long)(end - start), (long long)sum);
    return 0;
}
