/* What hound_file.h does with descriptors and effects that it wasn't made for: a file that was opened to append, an
   effect that only another library requests, and a program that has no more descriptors; and that it reads files as
   floats.
     descriptors PATH     (of a new file, which is removed) */
#define _GNU_SOURCE
#define _FILE_OFFSET_BITS 64
#include "hound.h"

/* The next effect of a repairer, as hound_file.h gets it here: of a newer library it has another kind. */
static int is_newer;
static int32_t next_effect(hound_repairer *repairer, hound_repair_t *found) {
    int32_t code = hound_repairer_next(repairer, found);
    if (code == 1 && is_newer) repairer->effect.kind = HOUND_SYNC_FOLDER + 1;
    return code;
}
#define hound_repairer_next next_effect
#include "hound_file.h"
#ifdef _WIN32
enum { IS_LATE = 1 }; /* A write at the end is noticed after it. */
#else
#include <sys/resource.h>
enum { IS_LATE = 0 };
#endif

static const hound_spec SPEC = {8000, 1, 16, 0, HOUND_INT};
static const uint8_t BLOCK[4] = {1, 0, 2, 0}, LIST[12] = {'L', 'I', 'S', 'T', 4, 0, 0, 0, 'I', 'N', 'F', 'O'};
static hound_file file;
static int status;

static void expect(const char *what, int holds) {
    if (!holds) status = 1, fprintf(stderr, "descriptors: %s\n", what);
}

/* Whether a file begins with these bytes, and how many it has. */
static int holds(const char *path, const uint8_t *bytes, size_t length, size_t *all) {
    uint8_t held[128];
    FILE *in = fopen(path, "rb");
    *all = in ? fread(held, 1, sizeof held, in) : 0;
    if (in) fclose(in);
    return *all >= length && memcmp(held, bytes, length) == 0;
}

/* The header of a file of no samples, with a chunk after it. */
static size_t make(const char *path, uint8_t *bytes) {
    int64_t length = hound_header(&SPEC, 0, bytes, HOUND_HEADER_BYTES);
    FILE *out = fopen(path, "wb");
    memcpy(bytes + length, LIST, sizeof LIST);
    expect("no file is made", out && fwrite(bytes, 1, (size_t)length + sizeof LIST, out) > 0 && fclose(out) == 0);
    return (size_t)length + sizeof LIST;
}

static void open_to_append(const char *path) {
    uint8_t bytes[HOUND_HEADER_BYTES + sizeof LIST];
    size_t length = make(path, bytes), all;
    hound_effect cut = {44, 0, HOUND_SHORTEN, HOUND_PENDING, {0}};
    file.descriptor = hound_file_open_at(path, O_RDWR | O_APPEND);
    expect("the recorder doesn't begin", hound_recorder_begin(&SPEC, &file.recorder) == 0);
    expect("a file that was opened to append is cut", IS_LATE || !hound_file_perform(&file, &cut, NULL));
    expect("a block is written to its end", hound_file_write(&file, BLOCK, 2) < 0 && file.fault == EBADF);
    expect("what to do isn't said", strstr(hound_file_text(&file, -1), "without O_APPEND") != NULL);
    expect("a checkpoint is made of it", hound_file_close(&file) < 0 && file.fault == EBADF);
    expect("such a file is changed", holds(path, bytes, IS_LATE ? 44 : length, &all) && (IS_LATE || all == length));

    file.descriptor = hound_file_open_at(path, O_RDWR);
    expect("the recorder doesn't begin again", hound_recorder_begin(&SPEC, &file.recorder) == 0);
    cut.report = HOUND_PENDING;
    expect("nothing is cut off", hound_file_perform(&file, &cut, NULL) && cut.report == HOUND_DONE);
    expect("a block isn't written", hound_file_write(&file, BLOCK, 2) == 0 && hound_file_close(&file) == 0);
    bytes[4] = 40, bytes[40] = 4;
    memcpy(bytes + 44, BLOCK, sizeof BLOCK);
    expect("the file isn't that of the samples", holds(path, bytes, 48, &all) && all == 48);
}

static void unknown_effect(const char *path) {
    static const uint16_t kinds[] = {HOUND_NOTHING, HOUND_SYNC_FOLDER + 1, UINT16_MAX};
    uint8_t bytes[HOUND_HEADER_BYTES + sizeof LIST];
    size_t length = make(path, bytes), all, i;
    for (i = 0; i < sizeof kinds / sizeof *kinds; i++) {
        hound_effect effect = {4, 4, 0, HOUND_PENDING, {0}};
        effect.kind = kinds[i], file.fault = 0, file.descriptor = hound_file_open_at(path, O_RDWR);
        expect("an unknown effect is performed", !hound_file_perform(&file, &effect, BLOCK));
        expect("it is reported as done", effect.report == HOUND_FAILED);
        expect("it isn't named", strstr(hound_file_text(&file, -1), "hound_file.h") != NULL);
        hound_file_close_at(file.descriptor);
    }
    hound_repair_t found;
    is_newer = 1;
    expect("a repair performs it", hound_file_repair(&file, path, HOUND_REPAIR, &found) < 0 && file.fault == EPROTO);
    expect("a recorder begins", hound_file_append(&file, path, HOUND_OVERWRITE, 0, &found) < 0 && file.fault == EPROTO);
    is_newer = 0;
    expect("neither does another", hound_file_append(&file, path, HOUND_OVERWRITE, 0, &found) == 0);
    hound_file_close_at(file.descriptor);
    expect("an unknown effect changes the file", holds(path, bytes, length, &all) && all == length);
}

/* Leaves a file of one channel at 8 kHz: a fmt chunk of 18 bytes, then an odd chunk, then samples, of which the header
   counts so many bytes. */
static void leave(const char *path, uint8_t tag, uint8_t bits, const uint8_t *data, size_t length, uint8_t counted) {
    uint8_t front[] = {'R', 'I', 'F', 'F', 60, 0, 0, 0, 'W', 'A', 'V', 'E', 'f', 'm', 't', ' ', 18, 0, 0, 0,
                       tag, 0, 1, 0, 0x40, 0x1f, 0, 0, 0, 0, 0, 0, 0, 0, bits, 0, 0, 0,
                       'n', 'o', 't', 'e', 1, 0, 0, 0, 'x', 0, 'd', 'a', 't', 'a', counted, 0, 0, 0};
    uint16_t frame = bits / 8, rate = (uint16_t)(8000 * frame);
    FILE *out = fopen(path, "wb");
    front[28] = (uint8_t)rate, front[29] = (uint8_t)(rate >> 8), front[32] = (uint8_t)frame;
    expect("no file is left", out && fwrite(front, 1, sizeof front, out) > 0 && fwrite(data, 1, length, out) == length
                                  && fclose(out) == 0);
}

/* A file of integers is read as these over 32768, one of floats as it is, and one that lacks a sample not at all. */
static void read_as_floats(const char *path) {
    static const uint8_t integers[] = {1, 0, 0, 0x80, 0, 0x40}, floats[] = {0, 0, 0x40, 0x3f, 0, 0, 0, 0xc0};
    static uint8_t many[60002];
    hound_info_t info;
    float *samples;
    leave(path, 1, 16, integers, sizeof integers, 6);
    expect("a file of integers isn't read", hound_file_read_f32(&file, path, &info, &samples) == 0 && samples
                                                && info.samples == 3 && info.spec.sample_rate == 8000);
    expect("its samples are others", samples[0] == 1 / 32768.0f && samples[1] == -1 && samples[2] == 0.5f);
    free(samples);
    leave(path, 3, 32, floats, sizeof floats, 8);
    expect("a file of floats isn't read", hound_file_read_f32(&file, path, &info, &samples) == 0 && samples
                                              && info.samples == 2 && samples[0] == 0.75f && samples[1] == -2);
    free(samples);
    leave(path, 1, 16, integers, sizeof integers - 1, 6);
    expect("a sample that isn't there is read",
           hound_file_read_f32(&file, path, &info, &samples) == HOUND_TRUNCATED && !samples);
    leave(path, 85, 16, integers, sizeof integers, 6);
    expect("MP3 is read", hound_file_read_f32(&file, path, &info, &samples) == HOUND_UNSUPPORTED && !samples
                              && file.kind == 85 && file.descriptor < 0);
    many[60001] = 0x40;
    FILE *out = fopen(path, "wb");
    int64_t length = hound_header(&SPEC, 30001, many, HOUND_HEADER_BYTES);
    uint8_t header[HOUND_HEADER_BYTES];
    memcpy(header, many, (size_t)length), memset(many, 0, (size_t)length);
    expect("no long file is left", out && fwrite(header, 1, (size_t)length, out) > 0
                                       && fwrite(many, 1, sizeof many, out) == sizeof many && fclose(out) == 0);
    expect("a file of many blocks isn't read", hound_file_read_f32(&file, path, &info, &samples) == 0 && samples
                                                   && samples[29999] == 0 && samples[30000] == 0.5f);
    free(samples);
    hound_file_remove(path);
    expect("a file that isn't there is read", hound_file_read_f32(&file, path, &info, &samples) == HOUND_NOT_PERFORMED
                                                  && file.fault == ENOENT && !samples);
}

/* Standard input is closed, and its number is the only free one. */
static void no_descriptors(const char *path) {
#ifndef _WIN32
    struct rlimit limit = {3, 3};
    close(0);
    expect("the limit isn't set", setrlimit(RLIMIT_NOFILE, &limit) == 0);
    expect("a recording begins", hound_file_create(&file, path, &SPEC, 0, 0) == HOUND_NOT_PERFORMED && file.fault);
    expect("a file is left", access(path, F_OK) < 0);
#endif
    (void)path;
}

int main(int argc, char **argv) {
    if (argc != 2) return fprintf(stderr, "usage: descriptors PATH\n"), 2;
    open_to_append(argv[1]);
    unknown_effect(argv[1]);
    read_as_floats(argv[1]);
    hound_file_remove(argv[1]);
    no_descriptors(argv[1]);
    if (status == 0) puts("descriptors: a file that was opened to append, unknown effects, no more descriptors, files as floats");
    return status;
}
