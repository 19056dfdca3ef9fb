/* WAV files in the caller's memory: read, written, appended to and repaired by proved code (crates/hound_c of the
   repository). Nothing is allocated, kept or called back, and no call calls the system.

     hound_info_t info;                            // a file of 16 bits that is in memory, read by blocks
     uint64_t first = 0;
     int64_t n = hound_info(file, length, &info);
     for (; n >= 0 && (n = hound_read_i16(file, length, first, block, 512)) > 0; first += n) use(block, n);
     if (n < 0) puts(hound_error_text(n));

     hound_spec spec = {.sample_rate = 48000, .channels = 1, .bits_per_sample = 16};
     int64_t used = hound_write_i16(&spec, block, 512, out, capacity);    // its length, or an error below 0
     if (used >= 0) used = hound_append_i16(out, capacity, used, block, 512);

   hound_file.h reads, records and repairs files at a path; hound_follow.h follows one. Until version 1.0 a minor
   version may change any declaration, and CHANGELOG.md says which; a patch version changes none. So compile with the
   header of the library that is linked: hound_version says which one that is.

   A file is an array of bytes: read by fread, mapped, or still to be written. No call keeps a state,
   allocates, calls the system, aborts or calls back. So each of them may be made from an audio
   callback, from any number of threads at once, and over shared memory, and nothing has to be freed.
   Over a mapped file the memory itself may block, until its pages are read from the disk, and a write
   to it ends the program by SIGBUS where the disk is full.

   Samples are counted over all channels and are interleaved; a frame has one sample of each channel.
   Integers are signed at every width, also at 8 bits.

   A caller must keep these conditions, which no call checks:
   - A pointer and the length after it are an array of that many elements, at most PTRDIFF_MAX bytes,
     aligned for its type.
   - No pointer is NULL, also where the length is 0: then the address of any object of the type will
     do. gcc and clang warn of a NULL that they see in a call (-Wnonnull), and a program that is
     compiled with -fsanitize=undefined reports each that is passed.
   - Memory that is passed without const overlaps no other argument, and nobody else uses it during
     the call. Memory that is passed with const isn't written during the call, so a mapped file must
     not change or get shorter.
   - What is read is initialized: specs, samples, and a file up to its `length` or its `used` bytes.
     What is only written need not be: `out`, `info`, `found`, a repairer or a recorder that is begun, and
     a file from `used` on.

   After an error the caller's memory is as it was before the call; but a recorder and a repairer remember
   which effect failed. */
#ifndef HOUND_H
#define HOUND_H
#include <stddef.h>
#include <stdint.h>
#ifdef __cplusplus
extern "C" {
#endif

/* The version of this interface, and of the library and the packages with it. It isn't that of the
   Rust crate hound, which the library is a port of: 3.5.1. */
#define HOUND_VERSION_MAJOR 0
#define HOUND_VERSION_MINOR 2
#define HOUND_VERSION_PATCH 0
#define HOUND_VERSION "0.2.0"
#define HOUND_VERSION_NUMBER (HOUND_VERSION_MAJOR * 65536 + HOUND_VERSION_MINOR * 256 + HOUND_VERSION_PATCH)

/* No pointer that is passed is NULL. */
#ifdef __GNUC__
#define HOUND_NONNULL __attribute__((nonnull))
#else
#define HOUND_NONNULL
#endif

/* The errors: what is returned below 0. */
enum {
    HOUND_ENDED = -1,            /* the bytes end before the data begin */
    HOUND_UNSUPPORTED = -2,      /* the format tag or subformat is neither PCM nor IEEE float */
    HOUND_OTHER_FORMAT = -3,     /* the samples are floats and the type is an integer, or vice versa */
    HOUND_TOO_WIDE = -4,         /* the samples are wider than the type, or a value than its bits */
    HOUND_NOT_WRITABLE = -5,     /* unsupported bits or bytes per sample. Calls that make a header also return it
                                    if there are no channels, if the rate is 0, or if the block align doesn't fit
                                    in 16 bits or the byte rate in 32; hound_sizes and hound_recorder_resume if
                                    there are no channels, or the data begin before byte 20 */
    HOUND_TRUNCATED = -6,        /* the header counts a sample that isn't among the bytes of the file */
    HOUND_TOO_LONG = -7,         /* the sizes of the file would not fit in 32 bits */
    HOUND_UNFINISHED_FRAME = -8, /* the samples are no whole frames */
    HOUND_NO_ROOM = -9,          /* more bytes are needed than the capacity, or already `used` */
    /* What is wrong with the bytes of a file. */
    HOUND_NO_RIFF_TAG = -10,
    HOUND_NO_WAVE_TAG = -11,
    HOUND_NO_DATA_CHUNK = -12,
    HOUND_NO_FMT_CHUNK = -13,
    HOUND_FMT_SIZE = -14,
    HOUND_UNEXPECTED_FMT_SIZE = -15,
    HOUND_ZERO_CHANNELS = -16,
    HOUND_BITS_EXCEED_WIDTH = -17,
    HOUND_INCONSISTENT = -18,
    HOUND_BITS_NOT_WHOLE_BYTES = -19,
    HOUND_ZERO_BITS = -20,
    HOUND_BITS_NOT_8_OR_16 = -21, /* nor 24, in a PCM fmt chunk of 18 or 40 bytes; one of 16 bytes takes
                                     every multiple of 8 */
    HOUND_EX_SIZE = -22,
    HOUND_BITS_NOT_32 = -23,
    HOUND_EXTENSIBLE_SIZE = -24,
    HOUND_DATA_LENGTH = -25,
    HOUND_FRAME_LENGTH = -26,
    /* What happened to the file of a recorder. */
    HOUND_NEEDS_CHECKPOINT = -27, /* a block or a checkpoint of the recorder failed: the next request begins with
                                     a checkpoint */
    HOUND_SYNC_FAILED = -28,      /* a sync failed, after which it is unknown what is stored: the recorder or
                                     the repairer has ended. A recording has at least the samples of its last
                                     checkpoint */
    HOUND_NEEDS_MEND = -29,       /* the recording was cut off, and the recorder may not mend it */
    HOUND_NEEDS_OVERWRITE = -30,  /* chunks or a tag follow the data, and the recorder may not overwrite them */
    HOUND_NOT_PERFORMED = -31     /* an effect other than a sync was reported as failed */
};

/* The formats of samples. */
enum { HOUND_INT = 0, HOUND_FLOAT = 1 };

/* How hound_repair found a file. */
enum {
    HOUND_WHOLE = 0,                 /* both sizes were right, no pad byte was missing, and at most bytes of a torn
                                        frame followed */
    HOUND_CUT_OFF = 1,               /* the data length was wrong, as after a recording that was cut off */
    HOUND_HAS_CHUNKS_AFTER_DATA = 2, /* chunks or a tag follow the data */
    HOUND_ALL_COUNTED = 3            /* the data length counts all whole frames, so no sample is concerned: only the
                                        RIFF size isn't that of the canonical form, or the pad byte after data of an
                                        odd length is missing */
};

/* Integers are written with 8, 16, 24 (in 3 or 4 bytes) and 32 bits, floats with 32 bits. */
typedef struct {
    uint32_t sample_rate;
    uint16_t channels;
    uint16_t bits_per_sample;
    uint16_t bytes_per_sample; /* of a container; 0 where a spec is passed: as many as the bits need */
    uint16_t sample_format;    /* HOUND_INT or HOUND_FLOAT; another number is an error wherever samples are read
                                  or written */
} hound_spec;

typedef struct {
    hound_spec spec;
    uint32_t samples;    /* how many the header counts, of all channels together */
    uint64_t data_start; /* how many bytes are before the first sample */
} hound_info_t;

typedef struct {
    hound_spec spec;
    uint32_t frames;      /* how many whole frames the file holds */
    uint32_t left_over;   /* how many bytes of a torn frame follow them */
    uint32_t state;       /* HOUND_WHOLE, HOUND_CUT_OFF, HOUND_HAS_CHUNKS_AFTER_DATA or HOUND_ALL_COUNTED */
    uint64_t data_start;  /* how many bytes are before the first sample */
    uint64_t length;      /* how many bytes the file had */
    uint32_t data_length; /* how many bytes of samples its header counted */
    uint32_t counted;     /* how many whole frames these are: a repair adds `frames - counted` to them */
} hound_repair_t;

/* Returns the HOUND_VERSION_NUMBER of the library, so that a program can compare it with that of this header. */
int32_t hound_version(void);

/* Finds what is before the data. Returns 0 or an error, and looks at no byte of the data. */
int32_t hound_info(const uint8_t *file, size_t length, hound_info_t *info) HOUND_NONNULL;

/* Files that the caller reads and writes: by a walk, a repairer or a recorder. Each of them requests one effect
   after the other, and the caller performs it and reports how it ended:

     while ((code = hound_.._next(&machine, ..)) == 1) perform(&machine.effect);

   `perform` does what `kind` says, and sets `report`: to HOUND_FAILED where it does not know the kind, since a newer
   library may request others. Without a report the next call requests the same effect again: so a program that was
   interrupted, and doesn't know whether an effect was done, just continues its loop. Only a sync that was begun and may
   have failed has to be reported as failed. hound_file.h has such a loop. */
enum {
    HOUND_NOTHING,     /* there is nothing to do */
    HOUND_READ,        /* read `length` bytes at `place` into `bytes`. Where the file ends before that, set `length` to
                          how many there were, and report the effect as done */
    HOUND_WRITE,       /* write the first `length` of `bytes` at `place` */
    HOUND_WRITE_BLOCK, /* write the caller's block, which has `length` bytes, at `place` */
    HOUND_SYNC,        /* sync the file. If that only passes the bytes on to the system, the file has all that comes
                          before it if the process is killed; only if it stores them, as fsync does, also after a
                          power failure */
    HOUND_SHORTEN,     /* cut the file off at `place`, where it is longer than that */
    HOUND_SYNC_FOLDER  /* sync the folder that holds the file's name, as fsync does. It does nothing where a sync
                          of the file stores the name, or where a power failure may take the file */
};

/* How an effect ended. One that was done only in part has failed. */
enum { HOUND_PENDING, HOUND_DONE, HOUND_FAILED };

enum { HOUND_EFFECT_BYTES = 40 };

typedef struct {
    uint64_t place;
    uint32_t length;
    uint16_t kind;
    uint16_t report; /* the caller's: HOUND_DONE or HOUND_FAILED */
    uint8_t bytes[HOUND_EFFECT_BYTES];
} hound_effect;

/* A walk to the data of a file that isn't in memory, or comes from a pipe. It begins as HOUND_WALK_BEGIN, and
   requests one part after the other: no byte twice, none of the data, and only the last byte of a chunk that it
   skips. */
typedef struct {
    hound_effect effect;
    hound_spec spec; /* the rest is for the calls */
    uint32_t taken, part, fmt_length;
} hound_walk;

#define HOUND_WALK_BEGIN {{0, 0, 0, 0, {0}}, {0, 0, 0, 0, 0}, 0, 0, 0}

/* Returns 1 for the next part; 0 if the data begin after the last one, and then info is as hound_info has it; or
   the error that hound_info returns. Where a read was reported as failed it returns HOUND_NOT_PERFORMED, and the walk
   stays as it is: with the report HOUND_PENDING that part is requested again. */
int32_t hound_walk_next(hound_walk *walk, hound_info_t *info) HOUND_NONNULL;

/* Like hound_walk_next, for a stream whose writer didn't know its length, such as one that wrote to a pipe: the length
   in the header is ignored, and `samples` is 0. The samples are all whole frames that follow. */
int32_t hound_walk_to_end(hound_walk *walk, hound_info_t *info) HOUND_NONNULL;

/* Returns how many bytes the whole frames among the first `length` bytes of a stream's samples have: what is left over
   at the end of the stream is a torn frame. HOUND_NOT_WRITABLE means that a frame of the spec has no byte,
   HOUND_TOO_LONG that the length is 2^63 or more. */
int64_t hound_whole_frames(const hound_spec *spec, uint64_t length) HOUND_NONNULL;

/* Returns where the data may begin in a file whose header is damaged: after the first "data" and a length that follow
   its first twelve bytes, or HOUND_NO_DATA_CHUNK. It is a guess, since samples may look like this. */
int64_t hound_guess_data(const uint8_t *file, size_t length) HOUND_NONNULL;

/* A follower of a recording that another program makes: it finds how much of the file can be read by now. It begins as
   HOUND_FOLLOWER_BEGIN, and requests only reads: the header, until all of it is there, and then the data length, in one
   look after the other. What it counts stays in the file, so it may be read at any later time, from `data_start` on.

     while ((code = hound_follower_next(&follower)) == 1) perform(&follower.effect);

   is one look; the next call after it begins the next one. A program that may read the four bytes of the length while
   a recorder writes them can get some bytes of the old length and some of the new one, which together count more than
   there is. So a follower reads them one by one, from the last to the first, while a recorder writes them from the
   first on: perform each read by a call of the system of its own, without a buffer that reads ahead. */
typedef struct {
    hound_effect effect;
    uint64_t data_start; /* how many bytes are before the first sample; 0 until all of the header was there */
    hound_spec spec;     /* of the samples, once `data_start` isn't 0 */
    uint32_t counted;    /* how many bytes of whole frames the header has counted, at most so far */
    uint32_t last, above, taken, part, fmt_length, unused; /* for the calls */
} hound_follower;

#define HOUND_FOLLOWER_BEGIN {{0, 0, 0, 0, {0}}, 0, {0, 0, 0, 0, 0}, 0, 0, 0, 0, 0, 0, 0}

/* What hound_follower_next returns at the end of a look that found nothing new. */
enum { HOUND_NOTHING_NEW = 2 };

/* Returns 1 for the next read; 0 where the look has found all of the header, or that it counts more whole frames;
   HOUND_NOTHING_NEW where it has found neither, also where the file ends within the header, as one does that was just
   made; or an error: why the header isn't read; HOUND_TRUNCATED where the file no longer has its data length;
   HOUND_TOO_LONG where that is the length of no file, as of a stream whose writer didn't know it; HOUND_NOT_PERFORMED
   where a read failed. Each of them ends the look, and the next call begins another one. A length that counts fewer
   frames than one before it, as where a checkpoint was cut off between its bytes, changes nothing. */
int32_t hound_follower_next(hound_follower *follower) HOUND_NONNULL;

/* Kinds of files whose samples have no number of a format. */
enum {
    HOUND_KIND_UNKNOWN = 65536,
    HOUND_KIND_RIFX,
    HOUND_KIND_RF64,
    HOUND_KIND_BW64,
    HOUND_KIND_W64,
    HOUND_KIND_AIFF,
    HOUND_KIND_FLAC,
    HOUND_KIND_OGG,
    HOUND_KIND_MPEG,
    HOUND_KIND_FLOAT64
};

/* Identifies a file by its first bytes, for an error message about one that can't be read: the format tag of its
   samples, from 0 to 65535, which is that of the first "fmt " after the twelfth byte, or of its subformat; or one of
   these kinds. hound_kind_text names it. */
int32_t hound_kind(const uint8_t *file, size_t length) HOUND_NONNULL;

/* Reads samples from number `first` on, counted from 0, and returns how many: as many as fit, as the
   header counts and as the bytes hold. So 0 means the end, or that count is 0. HOUND_TRUNCATED means
   that the header counts sample `first` and the bytes don't hold it. The rest of `out` stays.
   _i16 reads 8 and 16 bits, _i32 reads all integers, _f32 reads floats and keeps every NaN. */
int64_t hound_read_i16(const uint8_t *file, size_t length, uint64_t first, int16_t *out, size_t count) HOUND_NONNULL;
int64_t hound_read_i32(const uint8_t *file, size_t length, uint64_t first, int32_t *out, size_t count) HOUND_NONNULL;
int64_t hound_read_f32(const uint8_t *file, size_t length, uint64_t first, float *out, size_t count) HOUND_NONNULL;

/* Returns the length in bytes of a file of so many samples. */
int64_t hound_size(const hound_spec *spec, uint64_t samples) HOUND_NONNULL;

/* Writes the header of the file of so many samples to the front of `out`, and returns its length, which
   is at most HOUND_HEADER_BYTES. */
enum { HOUND_HEADER_BYTES = 68 };
int64_t hound_header(const hound_spec *spec, uint64_t samples, uint8_t *out, size_t capacity) HOUND_NONNULL;

/* Writes the two sizes of the file of so many samples whose data begin at `data_start`: the RIFF size,
   which is at byte 4 of a file, and the data length, which is in the four bytes before the data. Each
   has four bytes. Returns how many bytes that file has, with the pad byte after odd data. */
int64_t hound_sizes(const hound_spec *spec, uint64_t data_start, uint64_t samples, uint8_t *out,
                    size_t capacity) HOUND_NONNULL;

/* Writes a chunk that says nothing (JUNK) to the front of `out`, if it has to come before the header of data that would
   begin at `data_start`, so that the four bytes of the data length are within one sector of 512 bytes: then a power
   failure stores all of them or none. Returns its length, which is at most HOUND_FILLER_BYTES, or 0 where none is
   needed, as always where a file has no chunks before its data but its format. */
enum { HOUND_FILLER_BYTES = 10 };
int64_t hound_filler(uint64_t data_start, uint8_t *out, size_t capacity) HOUND_NONNULL;

/* Writes the whole file of these samples to the front of `out`, and returns its length. The rest of
   `out` stays. A value that doesn't fit in the bits of the spec is HOUND_TOO_WIDE. A file of 0 samples can be
   appended to. */
int64_t hound_write_i16(const hound_spec *spec, const int16_t *samples, size_t count, uint8_t *out,
                        size_t capacity) HOUND_NONNULL;
int64_t hound_write_i32(const hound_spec *spec, const int32_t *samples, size_t count, uint8_t *out,
                        size_t capacity) HOUND_NONNULL;
int64_t hound_write_f32(const hound_spec *spec, const float *samples, size_t count, uint8_t *out,
                        size_t capacity) HOUND_NONNULL;

/* Appends whole frames to the file in the first `used` bytes, and returns its new length: it is a
   whole file after each call. What follows the samples that the header counts is overwritten: chunks,
   and also the samples of a recording that was cut off before its header counted them. Where a file
   may have been cut off, call hound_repair first. */
int64_t hound_append_i16(uint8_t *file, size_t capacity, size_t used, const int16_t *samples,
                         size_t count) HOUND_NONNULL;
int64_t hound_append_i32(uint8_t *file, size_t capacity, size_t used, const int32_t *samples,
                         size_t count) HOUND_NONNULL;
int64_t hound_append_f32(uint8_t *file, size_t capacity, size_t used, const float *samples, size_t count) HOUND_NONNULL;

/* Repairs the file in the first `used` bytes, and returns its length: where its recording was cut off,
   both sizes become those of the whole frames that it holds. Where a pad byte is missing, which needs a
   capacity of one byte more, the length is one more. Where chunks follow data of the right length, or the data length
   counts all whole frames, nothing is written. */
int64_t hound_repair(uint8_t *file, size_t capacity, size_t used, hound_repair_t *found) HOUND_NONNULL;

/* Repairs a file in which all that follows the header of the data is samples, also what looks like chunks or a tag:
   a recording that was cut off, and that hound_repair takes for one with chunks after the data. It finds no chunks, and
   makes both sizes right also where it finds HOUND_ALL_COUNTED. */
int64_t hound_repair_to_end(uint8_t *file, size_t capacity, size_t used, hound_repair_t *found) HOUND_NONNULL;

/* Looks at a file as hound_repair does, and changes nothing of it. Returns 0, and reports in `found` what hound_repair
   would report; or returns the error that hound_repair would, unless that is HOUND_NO_ROOM. */
int32_t hound_find_damage(const uint8_t *file, size_t length, hound_repair_t *found) HOUND_NONNULL;

/* A repairer of a file that the caller reads and writes. It begins with the length of the file, and looks at few
   parts of it: those that a walk looks at, the headers of chunks after the data, and the end. */
typedef struct {
    hound_effect effect;
    uint64_t length, place, data_start; /* the rest is for the calls */
    hound_spec spec;
    uint32_t data_length, taken, part, fmt_length, number, mode, unused;
} hound_repairer;

enum {
    HOUND_FIND_DAMAGE,  /* it only reads, and finds what HOUND_REPAIR would */
    HOUND_REPAIR,       /* it repairs as hound_repair does */
    HOUND_REPAIR_TO_END, /* it repairs as hound_repair_to_end does */
    HOUND_MAKE_CANONICAL /* it repairs as HOUND_REPAIR does, and also writes the RIFF size and the pad byte of a file
                            that it finds HOUND_ALL_COUNTED */
};

/* Begins a repairer of a file of so many bytes. */
void hound_repairer_begin(uint64_t length, uint32_t mode, hound_repairer *repairer) HOUND_NONNULL;

/* Returns 1 for the next effect; 0 if all are done, and then `found` is what the file was; or an error of
   hound_repair, or what an effect was reported as, which ends the repairer. It writes the sizes and a missing pad
   byte, in an order in which a killed process or a power failure loses no sample and invents none, with a sync between
   two writes: first of all that there is, then the RIFF size, the data length, the pad byte. So there are at most seven
   effects that write or sync, and a look at a file reads few parts of it: after each effect that is reported as done
   fewer are left, whatever was read. A part that was read in fewer bytes than the file has of it by its length is
   HOUND_ENDED, because what wasn't read may be a chunk; and so is a part of the header of which more was read, because
   the file has grown. After an error, or where it was stopped, the file can be
   repaired by another repairer. Where nothing is to be written it syncs nothing: so after a repair that was stopped
   before its last sync, a power failure may leave the file as it was before that. */
int32_t hound_repairer_next(hound_repairer *repairer, hound_repair_t *found) HOUND_NONNULL;

/* Samples without a file around them: containers one after the other, as in the data of a file. They
   are for streams, and for a file whose header is too long to be walked over for each block.
   Decoding returns how many samples, as many as fit and as the bytes hold; encoding returns how many
   bytes. The rate and the channels of the spec have no effect. */
int64_t hound_decode_i8(const hound_spec *spec, const uint8_t *bytes, size_t length, int8_t *out,
                        size_t count) HOUND_NONNULL;
int64_t hound_decode_i16(const hound_spec *spec, const uint8_t *bytes, size_t length, int16_t *out,
                         size_t count) HOUND_NONNULL;
int64_t hound_decode_i32(const hound_spec *spec, const uint8_t *bytes, size_t length, int32_t *out,
                         size_t count) HOUND_NONNULL;
int64_t hound_decode_f32(const hound_spec *spec, const uint8_t *bytes, size_t length, float *out,
                         size_t count) HOUND_NONNULL;
int64_t hound_encode_i8(const hound_spec *spec, const int8_t *samples, size_t count, uint8_t *out,
                        size_t capacity) HOUND_NONNULL;
int64_t hound_encode_i16(const hound_spec *spec, const int16_t *samples, size_t count, uint8_t *out,
                         size_t capacity) HOUND_NONNULL;
int64_t hound_encode_i32(const hound_spec *spec, const int32_t *samples, size_t count, uint8_t *out,
                         size_t capacity) HOUND_NONNULL;
int64_t hound_encode_f32(const hound_spec *spec, const float *samples, size_t count, uint8_t *out,
                         size_t capacity) HOUND_NONNULL;

/* The integer of one container, whose bytes are the low ones of a number: its first byte is the lowest.
   They are for a reader that reads no byte ahead; the other bytes of the number have no effect.
   _24 is for containers of three bytes and of four. */
int32_t hound_value_8(uint32_t container);
int32_t hound_value_16(uint32_t container);
int32_t hound_value_24(uint32_t container);
int32_t hound_value_32(uint32_t container);

/* The other direction: the container of one integer, in the low bytes of a number whose other bytes are 0, or
   HOUND_TOO_WIDE if the bits don't hold the integer. */
int64_t hound_container_8(int32_t value);
int64_t hound_container_16(int32_t value);
int64_t hound_container_24(int32_t value);
int64_t hound_container_32(int32_t value);

/* Decodes integers of a spec as floats whose full scale is 1: each is divided by 2^(bits - 1). So any file of integers
   can be read as floats. Returns how many, as many as fit and as the bytes hold; floats of a file are
   HOUND_OTHER_FORMAT. Integers of up to 24 bits are the same again after hound_from_f32. */
int64_t hound_to_f32(const hound_spec *spec, const uint8_t *bytes, size_t length, float *out,
                     size_t count) HOUND_NONNULL;

/* Encodes floats whose full scale is 1 as integers of a spec: each is multiplied by 2^(bits - 1) and rounded to the
   nearest integer, of two the even one. What the bits don't hold is clipped, and `clipped` counts such samples; a
   NaN is 0. Returns how many bytes. */
int64_t hound_from_f32(const hound_spec *spec, const float *samples, size_t count, uint8_t *out, size_t capacity,
                       uint64_t *clipped) HOUND_NONNULL;

/* The same of doubles, which hold integers of up to 32 bits: each is the same again after hound_from_f64. */
int64_t hound_to_f64(const hound_spec *spec, const uint8_t *bytes, size_t length, double *out,
                     size_t count) HOUND_NONNULL;
int64_t hound_from_f64(const hound_spec *spec, const double *samples, size_t count, uint8_t *out, size_t capacity,
                       uint64_t *clipped) HOUND_NONNULL;

/* Encodes floats as hound_from_f32 and hound_from_f64 do, each with noise that is added before it is rounded: so what
   the rounding changes is noise, too, and no distortion. `state` begins as any number, which is the seed, and becomes
   the one for the samples after these: the same seed gives the same samples, in however many calls.
   The noise of a sample comes from the next state of the generator that Knuth's MMIX has: a state is the one before
   it, times 6364136223846793005, plus 1442695040888963407, modulo 2^64. The noise is its upper 16 bits less the 16
   bits below them, divided by 2^16, in steps of the integers: so it is triangular, and less than a step. The sum is a
   double, which is rounded once before it becomes an integer. */
int64_t hound_dither_f32(const hound_spec *spec, const float *samples, size_t count, uint64_t *state, uint8_t *out,
                         size_t capacity, uint64_t *clipped) HOUND_NONNULL;
int64_t hound_dither_f64(const hound_spec *spec, const double *samples, size_t count, uint64_t *state, uint8_t *out,
                         size_t capacity, uint64_t *clipped) HOUND_NONNULL;

/* Converts the floats of a file to doubles, which are the same numbers; and doubles to the nearest floats, of two the
   even one, where `infinite` counts the finite doubles that become infinite. Each returns how many. */
int64_t hound_f32_to_f64(const float *samples, size_t count, double *out, size_t capacity) HOUND_NONNULL;
int64_t hound_f64_to_f32(const double *samples, size_t count, float *out, size_t capacity,
                         uint64_t *infinite) HOUND_NONNULL;

/* A recorder of a file that the caller writes, block by block. It says where the samples are written, and by which
   effects a checkpoint makes the header count them. Between checkpoints the header counts those of the last one, and
   a repair finds the others that are there; where frames have one byte it takes a pad byte that isn't counted yet for
   one.
   A program begins a file (hound_beginning) and a recorder, and performs all effects until there is none. Then, as
   often as it likes, it requests a block or a checkpoint, and does the same. After each effect that is reported fewer
   are left: a checkpoint has at most eight, a block at most eleven. A block that failed is cut off, and the next
   request begins with a checkpoint. */
typedef struct {
    hound_effect effect;
    uint64_t data_start;                    /* how many bytes are before the first sample */
    uint32_t data_length;                   /* how many bytes of samples are written */
    uint32_t number, block;                 /* for the calls */
    uint16_t bytes_per_sample, channels;    /* of the file */
    uint16_t health, phase, has_rest, unused; /* for the calls */
} hound_recorder;

/* How a new file begins: the effect with this number, from 0 on. Returns 1, or 0 where no effect has this number, or an
   error, and then `effect` stays. A program performs one after the other, and begins the recorder after the last:
     for (number = 0; (code = hound_beginning(&spec, number, &effect)) == 1 && perform(&effect); number++) {}
   Where one of them fails nothing is recorded: the program begins again, or removes the file if it has made it. They
   sync the folder and the file, which is cut off at its first byte, and then write the header in two parts. */
int32_t hound_beginning(const hound_spec *spec, uint32_t number, hound_effect *effect) HOUND_NONNULL;

/* Begins a recorder of a new file. A checkpoint of no samples is under way, so the effects that hound_recorder_next
   requests store the header; a request that is made before takes its place. Returns 0 or an error. */
int32_t hound_recorder_begin(const hound_spec *spec, hound_recorder *recorder) HOUND_NONNULL;

/* What a recorder of a file that exists may do. */
enum {
    HOUND_MEND = 1,     /* continue a recording that was cut off, after all whole frames that it holds */
    HOUND_OVERWRITE = 2 /* continue after the samples that the header counts, and cut off chunks or a tag after them */
};

/* Begins a recorder of a file as a repairer of HOUND_FIND_DAMAGE found it; `allowed` is a sum of what it may do. A file
   that ends with the whole frames that its header counts, or with their pad byte, needs neither, and one that is whole
   but for bytes of a torn frame doesn't, either: these are cut off. Where samples are missing that the header counts it
   is HOUND_TRUNCATED; where the header counts more than the whole frames, HOUND_MEND is rejected as
   HOUND_UNFINISHED_FRAME, since a recorder never cuts off what is counted: repair the file first. Where the
   recording has to survive a power failure, sync the file before the repairer looks at it, because what it finds may
   not be stored yet. Returns 0 or an error. */
int32_t hound_recorder_resume(const hound_repair_t *found, uint32_t allowed, hound_recorder *recorder) HOUND_NONNULL;

/* Requests that a block of so many samples is written, as hound_encode_.. gives them: whole frames, which have
   room. A block that is under way is given up, and one that wasn't reported may be in the file in part: it is cut
   off. Returns 0, or an error, and then no block is requested; a checkpoint that is under way continues. */
int32_t hound_recorder_write(hound_recorder *recorder, uint64_t samples) HOUND_NONNULL;

/* Requests a checkpoint of all that is written. */
void hound_recorder_checkpoint(hound_recorder *recorder) HOUND_NONNULL;

/* Returns how many frames fit after those that are written, so that a program can continue in another file before
   a block is too long. It is 0 where no more fits, or where no file has such data. */
int64_t hound_recorder_frames_left(const hound_recorder *recorder) HOUND_NONNULL;

/* Returns 1 for the next effect of what was requested, and 0 if all of it is done: after a checkpoint the header counts
   all samples. After a block or an effect that failed it returns HOUND_NEEDS_CHECKPOINT, and that ends the request:
   after it there is nothing to do. After a sync that failed it returns HOUND_SYNC_FAILED, and so does each later
   call: look at the file again, and begin another recorder. */
int32_t hound_recorder_next(hound_recorder *recorder) HOUND_NONNULL;

/* A sentence for an error, without its full stop. */
static inline const char *hound_error_text(int64_t code) {
    switch (code) {
    case HOUND_ENDED: return "the bytes end before the data begin";
    case HOUND_UNSUPPORTED: return "the format is neither PCM nor IEEE float";
    case HOUND_OTHER_FORMAT: return "the samples are floats and the type is an integer, or vice versa";
    case HOUND_TOO_WIDE: return "the samples are wider than the type, or a value than its bits";
    case HOUND_NOT_WRITABLE:
        return "samples of this spec are not read or written (integers have 8, 16, 24 or 32 bits, floats 32)";
    case HOUND_TRUNCATED:
        return "the header counts a sample that the file does not hold "
               "(a recording that was cut off can be repaired, a stream of unknown length can be read to its end)";
    case HOUND_TOO_LONG: return "the sizes of the file would not fit in 32 bits";
    case HOUND_UNFINISHED_FRAME: return "the samples are no whole frames";
    case HOUND_NO_ROOM: return "more bytes are needed than the capacity";
    case HOUND_NO_RIFF_TAG: return "no RIFF tag found";
    case HOUND_NO_WAVE_TAG: return "no WAVE tag found";
    case HOUND_NO_DATA_CHUNK: return "missing data chunk";
    case HOUND_NO_FMT_CHUNK: return "missing fmt chunk";
    case HOUND_FMT_SIZE: return "invalid fmt chunk size";
    case HOUND_UNEXPECTED_FMT_SIZE: return "unexpected fmt chunk size";
    case HOUND_ZERO_CHANNELS: return "file contains zero channels";
    case HOUND_BITS_EXCEED_WIDTH: return "sample bits exceeds size of sample";
    case HOUND_INCONSISTENT: return "inconsistent fmt chunk";
    case HOUND_BITS_NOT_WHOLE_BYTES: return "bits per sample is not a multiple of 8";
    case HOUND_ZERO_BITS: return "bits per sample is 0";
    case HOUND_BITS_NOT_8_OR_16: return "bits per sample is not 8, 16 or 24 in a PCM fmt chunk of 18 or 40 bytes";
    case HOUND_EX_SIZE: return "unexpected WAVEFORMATEX size";
    case HOUND_BITS_NOT_32: return "bits per sample is not 32";
    case HOUND_EXTENSIBLE_SIZE: return "unexpected WAVEFORMATEXTENSIBLE size";
    case HOUND_DATA_LENGTH:
        return "data chunk length is not a multiple of sample size "
               "(a recording that was cut off can be repaired, a stream of unknown length can be read to its end)";
    case HOUND_FRAME_LENGTH:
        return "invalid data chunk length "
               "(a recording that was cut off can be repaired, a stream of unknown length can be read to its end)";
    case HOUND_NEEDS_CHECKPOINT:
        return "a write failed or a checkpoint is not done, and no samples are written before one is";
    case HOUND_SYNC_FAILED: return "a sync failed, and it is unknown what is stored";
    case HOUND_NEEDS_MEND: return "the recording was cut off, and has to be repaired first";
    case HOUND_NEEDS_OVERWRITE: return "chunks or a tag follow the data, and would be overwritten";
    case HOUND_NOT_PERFORMED: return "the file could not be read or written";
    default: return code < 0 ? "unknown error" : "no error";
    }
}

/* The name of what hound_kind returned; NULL for samples that the library reads, and for what it doesn't know. The
   numbers below 65536 are those of mmreg.h, the list of registered wave formats. */
static inline const char *hound_kind_text(int32_t kind) {
    switch (kind) {
    case 2: return "Microsoft ADPCM";
    case 6: return "A-law";
    case 7: return "mu-law";
    case 17: return "IMA ADPCM";
    case 34: return "TrueSpeech";
    case 49: return "GSM 6.10";
    case 64: return "G.721 ADPCM";
    case 80: return "MPEG";
    case 85: return "MP3";
    case 8192: return "AC-3";
    case HOUND_KIND_RIFX: return "RIFX, whose numbers have their highest byte first";
    case HOUND_KIND_RF64: return "RF64, which is for more than 4 GiB";
    case HOUND_KIND_BW64: return "BW64, which is for more than 4 GiB";
    case HOUND_KIND_W64: return "Wave64";
    case HOUND_KIND_AIFF: return "AIFF";
    case HOUND_KIND_FLAC: return "FLAC";
    case HOUND_KIND_OGG: return "Ogg";
    case HOUND_KIND_MPEG: return "MP3, or another MPEG audio";
    case HOUND_KIND_FLOAT64: return "floats of 64 bits";
    default: return (const char *)0;
    }
}

#ifdef __cplusplus
}
#endif
/* The layout that the library has: where a compiler has another one, a line below is its error. C99 and C++98 have no
   static assertion: there an array of -1 elements is one. */
#if defined(__cplusplus) && __cplusplus >= 201103L
#define HOUND_ASSERT(condition) static_assert(condition, #condition)
#elif defined(__STDC_VERSION__) && __STDC_VERSION__ >= 201112L
#define HOUND_ASSERT(condition) _Static_assert(condition, #condition)
#else
#define HOUND_NAMED(line) hound_assertion_##line
#define HOUND_ASSERT_AT(line, condition) typedef char HOUND_NAMED(line)[(condition) ? 1 : -1]
#define HOUND_ASSERT(condition) HOUND_ASSERT_AT(__LINE__, condition)
#endif
HOUND_ASSERT(sizeof(float) == 4);
/* The layout of the structs, made from hound.h by scripts/make_interface.py. */
HOUND_ASSERT(sizeof(hound_spec) == 12 && offsetof(hound_spec, channels) == 4
             && offsetof(hound_spec, bits_per_sample) == 6 && offsetof(hound_spec, bytes_per_sample) == 8
             && offsetof(hound_spec, sample_format) == 10);
HOUND_ASSERT(sizeof(hound_info_t) == 24 && offsetof(hound_info_t, samples) == 12
             && offsetof(hound_info_t, data_start) == 16);
HOUND_ASSERT(sizeof(hound_repair_t) == 48 && offsetof(hound_repair_t, frames) == 12
             && offsetof(hound_repair_t, left_over) == 16 && offsetof(hound_repair_t, state) == 20
             && offsetof(hound_repair_t, data_start) == 24 && offsetof(hound_repair_t, length) == 32
             && offsetof(hound_repair_t, data_length) == 40 && offsetof(hound_repair_t, counted) == 44);
HOUND_ASSERT(sizeof(hound_effect) == 56 && offsetof(hound_effect, length) == 8
             && offsetof(hound_effect, kind) == 12 && offsetof(hound_effect, report) == 14
             && offsetof(hound_effect, bytes) == 16);
HOUND_ASSERT(sizeof(hound_walk) == 80 && offsetof(hound_walk, spec) == 56 && offsetof(hound_walk, taken) == 68
             && offsetof(hound_walk, part) == 72 && offsetof(hound_walk, fmt_length) == 76);
HOUND_ASSERT(sizeof(hound_follower) == 104 && offsetof(hound_follower, data_start) == 56
             && offsetof(hound_follower, spec) == 64 && offsetof(hound_follower, counted) == 76
             && offsetof(hound_follower, last) == 80 && offsetof(hound_follower, above) == 84
             && offsetof(hound_follower, taken) == 88 && offsetof(hound_follower, part) == 92
             && offsetof(hound_follower, fmt_length) == 96 && offsetof(hound_follower, unused) == 100);
HOUND_ASSERT(sizeof(hound_repairer) == 120 && offsetof(hound_repairer, length) == 56
             && offsetof(hound_repairer, place) == 64 && offsetof(hound_repairer, data_start) == 72
             && offsetof(hound_repairer, spec) == 80 && offsetof(hound_repairer, data_length) == 92
             && offsetof(hound_repairer, taken) == 96 && offsetof(hound_repairer, part) == 100
             && offsetof(hound_repairer, fmt_length) == 104 && offsetof(hound_repairer, number) == 108
             && offsetof(hound_repairer, mode) == 112 && offsetof(hound_repairer, unused) == 116);
HOUND_ASSERT(sizeof(hound_recorder) == 88 && offsetof(hound_recorder, data_start) == 56
             && offsetof(hound_recorder, data_length) == 64 && offsetof(hound_recorder, number) == 68
             && offsetof(hound_recorder, block) == 72 && offsetof(hound_recorder, bytes_per_sample) == 76
             && offsetof(hound_recorder, channels) == 78 && offsetof(hound_recorder, health) == 80
             && offsetof(hound_recorder, phase) == 82 && offsetof(hound_recorder, has_rest) == 84
             && offsetof(hound_recorder, unused) == 86);
/* The end of what is made from hound.h. */
#undef HOUND_ASSERT
#undef HOUND_ASSERT_AT
#undef HOUND_NAMED
#endif
