/* Writes the samples of a WAV file to standard output without a header: integers of up to 16 bits as
   int16_t, wider ones as int32_t, floats as float; with --float all as float, integers in full scale 1.
   The file comes from standard input, which may be a pipe: nothing is read twice, and no more than a
   block is in memory. With --to-end it is a stream, whose header may not know its length: all whole
   frames to its end are samples.
     cc -Ibindings/c bindings/c/cat.c bindings/lib/x86_64-linux/libhound_c.a -o cat && ./cat < in.wav > out.raw */
#include "hound_file.h"

enum { BLOCK = 65536 }; /* bytes of samples: a frame has fewer */
static uint64_t taken; /* how many bytes of the input were read */
static uint8_t front[HOUND_FILE_FRONT]; /* the first ones of these */

static size_t least(uint64_t a, size_t b) { return a < b ? (size_t)a : b; }

/* Reads so many bytes; fewer only at the end, or where reading fails. */
static size_t take(uint8_t *out, size_t count) {
    size_t got = fread(out, 1, count, stdin);
    if (taken < sizeof front) memcpy(front + taken, out, least(got, sizeof front - (size_t)taken));
    taken += got;
    return got;
}

/* Reads the part of the input that a walk requests. What comes before it is read, too. */
static void perform(hound_effect *effect) {
    static uint8_t skipped[4096];
    while (taken < effect->place && take(skipped, least(effect->place - taken, sizeof skipped)) > 0) continue;
    effect->length = taken < effect->place ? 0 : (uint32_t)take(effect->bytes, effect->length);
    effect->report = ferror(stdin) ? HOUND_FAILED : HOUND_DONE;
}

/* Reads all that is before the data, and no byte more. */
static int32_t find_data(hound_info_t *info, int to_end) {
    hound_walk walk = HOUND_WALK_BEGIN;
    int32_t code;
    while ((code = to_end ? hound_walk_to_end(&walk, info) : hound_walk_next(&walk, info)) == 1) perform(&walk.effect);
    return code;
}

/* The samples of a block, of one type. */
static union { int16_t shorts[BLOCK]; int32_t ints[BLOCK]; float floats[BLOCK]; } out;

/* Decodes the containers of a block, and returns how many bytes `out` has of them. */
static int64_t decode(const hound_spec *spec, const uint8_t *bytes, size_t length, int as_floats) {
    if (spec->sample_format == HOUND_FLOAT) return 4 * hound_decode_f32(spec, bytes, length, out.floats, BLOCK);
    if (as_floats) return 4 * hound_to_f32(spec, bytes, length, out.floats, BLOCK);
    if (spec->bits_per_sample <= 16) return 2 * hound_decode_i16(spec, bytes, length, out.shorts, BLOCK);
    return 4 * hound_decode_i32(spec, bytes, length, out.ints, BLOCK);
}

static int fail(const char *why) {
    fprintf(stderr, "cat: %s\n", why);
    return 1;
}

/* The sentence of an error. If the data length is wrong it says what reads the samples nevertheless. */
static const char *text_of(int32_t code) {
    int is_wrong = code == HOUND_TRUNCATED || code == HOUND_DATA_LENGTH || code == HOUND_FRAME_LENGTH;
    if (!is_wrong) return hound_error_text(code);
    return "the header counts other samples than there are: --to-end reads them, and repair mends a file";
}

/* Names what the input is that isn't read. Its fmt chunk may begin after the last byte that was read. */
static int fail_by_kind(const char *otherwise) {
    static uint8_t fmt[64];
    char room[HOUND_FILE_SENTENCE];
    take(fmt, sizeof fmt);
    const char *reason = hound_file_kind_reason(hound_kind(front, least(taken, sizeof front)), room);
    return fail(reason ? reason : otherwise);
}

/* Copies the samples that follow, and returns the status. Those of a stream end where the input does. */
static int copy(const hound_info_t *info, int to_end, int as_floats) {
    static uint8_t bytes[BLOCK];
    const hound_spec *spec = &info->spec;
    uint64_t left = to_end ? UINT64_MAX : (uint64_t)info->samples * spec->bytes_per_sample;
    while (left > 0) {
        size_t wanted = least(left, (size_t)hound_whole_frames(spec, BLOCK)), got = take(bytes, wanted);
        int64_t length = decode(spec, bytes, to_end ? (size_t)hound_whole_frames(spec, got) : got, as_floats);
        if (length < 0) return fail_by_kind("these samples are not read");
        if (fwrite(&out, 1, (size_t)length, stdout) != (size_t)length || (got < wanted && fflush(stdout)))
            return fail("writing failed");
        if (got < wanted && ferror(stdin)) return fail("reading failed");
        if (got < wanted && !to_end) return fail(text_of(HOUND_TRUNCATED));
        if (got < wanted)
            return hound_whole_frames(spec, got) == (int64_t)got ? 0 : fail("the last bytes are no whole frame");
        left -= got;
    }
    return fflush(stdout) ? fail("writing failed") : 0;
}

int main(int argc, char **argv) {
    int as_floats = 0, to_end = 0;
    for (int i = 1; i < argc; i++) {
        int *option = !strcmp(argv[i], "--float") ? &as_floats : !strcmp(argv[i], "--to-end") ? &to_end : NULL;
        if (!option) return fail("usage: cat [--float] [--to-end] < FILE");
        *option = 1;
    }
    hound_info_t info;
    hound_file_set_binary(0), hound_file_set_binary(1);
    int32_t code = find_data(&info, to_end);
    if (ferror(stdin)) return fail("reading failed");
    return code < 0 ? fail_by_kind(text_of(code)) : copy(&info, to_end, as_floats);
}
