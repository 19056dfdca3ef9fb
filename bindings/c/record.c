/* Records PCM from standard input: little-endian, with 8 bits (unsigned), 16, 24 in three bytes, or 32, as from
   arecord. After every so many frames a checkpoint makes the header count all samples, and prints how many they are.
   If the program is killed, the file has those. A file that exists is rejected; --append continues after all that it
   holds, repaired first if that is needed, and begins one that is missing, or has only a part of a new header, as a
   kill leaves it; --overwrite empties it. With --split a file has at most so many frames, and never more than have
   room: take.wav is continued in take-002.wav, take-003.wav and so on, none of which may exist. No other program that
   asks for a lock (flock; LockFileEx on Windows), as repair.c does, writes it meanwhile. With --durable a sync is an
   fsync (_commit): then the file has its checkpoints after a power failure, too, but Windows may lose the name of a
   new one. Without it a sync does nothing, since what was written is with the system. After an error the program
   continues, and prints how many samples were lost; why, it says on standard error. It ends at the name of a next file
   that exists. With --chunk NAME=FILE each file has a chunk of this name, such as bext, with what FILE holds, before
   its samples; of a file that is continued the chunks stay as they are.
     cc -Ibindings/c bindings/c/record.c bindings/lib/x86_64-linux/libhound_c.a -o record
     arecord -t raw -f S16_LE -r 48000 -c 2 | ./record take.wav 48000 2 16 240000 --durable */
#include "hound_file.h"
#include <signal.h>

static hound_file file;
static int is_whole = 1;
static unsigned parts = 1;    /* how many files the recording has */
static unsigned long before; /* how many samples are in those before this one */

static void complain(const char *why) { fprintf(stderr, "record: %s\n", why), is_whole = 0; }
static void stop(const char *why) { complain(why), exit(1); }
static unsigned long samples_in(uint32_t bytes) { return bytes / file.recorder.bytes_per_sample; }
static unsigned long recorded(void) { return before + samples_in(file.recorder.data_length); }
static size_t least(uint64_t a, uint64_t b) { return (size_t)(a < b ? a : b); }

/* The number that an argument is; another word, as one with a unit, is an error that names it. */
static uint64_t number_of(const char *name, const char *word, uint32_t most) {
    static char why[160];
    char *end = NULL;
    uint64_t number = *word >= '0' && *word <= '9' ? strtoull(word, &end, 10) : 0;
    if (number > 0 && number <= most && !*end) return number;
    snprintf(why, sizeof why, "%s is %.40s, and not a whole number from 1 to %lu", name, word, (unsigned long)most);
    return stop(why), 0;
}

/* Chunks before the samples, one after the other, and the header of a file that has them. */
static uint8_t *chunks, *header;
static size_t chunks_length;
static uint32_t header_length;

static uint8_t *enlarged(uint8_t *bytes, size_t length) {
    bytes = (uint8_t *)realloc(bytes, length);
    if (!bytes) stop("there is no memory for a chunk");
    return bytes;
}

/* Adds the chunk that an argument NAME=FILE is. */
static void add_chunk(const char *word) {
    uint8_t *content = NULL;
    size_t length = 0, room = 0;
    int64_t added;
    int descriptor, fault;
    if (strlen(word) < 6 || word[4] != '=') stop("a chunk is NAME=FILE, where NAME has four characters");
    descriptor = hound_file_open_at(word + 5, O_RDONLY);
    if (descriptor < 0) stop(strerror(errno));
    do {
        room = 2 * room + 4096;
        content = enlarged(content, room);
        length += hound_file_take(descriptor, content + length, room - length, &fault);
    } while (length == room);
    hound_file_close_at(descriptor);
    if (fault) stop(strerror(fault));
    chunks = enlarged(chunks, chunks_length + length + HOUND_FILE_CHUNK_BYTES);
    added = hound_file_chunk(word, content, length, chunks + chunks_length, length + HOUND_FILE_CHUNK_BYTES);
    if (added < 0) stop(hound_error_text(added));
    chunks_length += (size_t)added;
    free(content);
}

/* Makes the header, where there are chunks. */
static void make_header(const hound_spec *spec) {
    size_t room = chunks_length + HOUND_HEADER_BYTES + HOUND_FILLER_BYTES;
    int64_t length;
    if (chunks_length == 0) return;
    header = enlarged(NULL, room);
    length = hound_file_header(spec, chunks, chunks_length, header, room);
    if (length == HOUND_NO_DATA_CHUNK) stop("no chunk may be named data or \"fmt \"");
    if (length < 0) stop(hound_error_text(length));
    header_length = (uint32_t)length;
}

/* What a call returned; why it failed is said, if the system did. */
static int32_t said(int32_t code) {
    if (code < 0) is_whole = 0;
    if (code < 0 && file.fault) complain(hound_file_text(&file, code));
    return code;
}

/* The name of the next file. */
static const char *next_name(const char *path) {
    static char name[1 << 15];
    if (hound_file_part(path, parts + 1, name, sizeof name) < 0) stop("the path is too long");
    return name;
}

/* Ends the program where the second file couldn't be made. */
static void check_second(const char *path) {
    char why[160];
    if (hound_file_check_new(next_name(path)) == 0) return;
    if (errno == EEXIST) stop("the second file exists: remove or rename it");
    snprintf(why, sizeof why, "the second file, whose name ends in -002, can't be made: %s", strerror(errno));
    stop(why);
}

/* Continues in the next file. */
static int32_t go_on(const char *path, const hound_spec *spec) {
    int older = file.descriptor;
    unsigned long held = recorded();
    int32_t code = hound_file_next(&file, next_name(path), spec);
    if (file.descriptor != older) parts++, before = held;
    return code;
}

int main(int argc, char **argv) {
    static uint8_t block[1 << 17];
    char room[HOUND_FILE_SENTENCE];
    hound_repair_t found;
    static const char usage[] = "usage: record FILE RATE CHANNELS BITS FRAMES [--durable] [--append | --overwrite]"
                                " [--split FRAMES] [--chunk NAME=FILE]..\nRATE is in Hz, and no number has a unit";
    static const char *const names[4] = {"RATE", "CHANNELS", "BITS", "FRAMES"};
    static const uint32_t most[4] = {UINT32_MAX, UINT16_MAX, 32, UINT32_MAX};
    uint64_t numbers[4] = {0}, split = 0, has_room;
    int is_durable = 0, is_appended = 0, is_overwritten = 0, is_split = 0, is_taken = 0, fault;
    hound_file_arguments(&argc, &argv);
    for (int i = 2; i < argc; i++) {
        if (i >= 6 && !strcmp(argv[i], "--durable")) is_durable = 1;
        else if (i >= 6 && !strcmp(argv[i], "--append")) is_appended = 1;
        else if (i >= 6 && !strcmp(argv[i], "--overwrite")) is_overwritten = 1;
        else if (i >= 6 && i + 1 < argc && !strcmp(argv[i], "--split"))
            is_split = 1, split = number_of("--split", argv[++i], UINT32_MAX);
        else if (i >= 6 && i + 1 < argc && !strcmp(argv[i], "--chunk")) add_chunk(argv[++i]);
        else if (i >= 6) stop(usage);
        else numbers[i - 2] = number_of(names[i - 2], argv[i], most[i - 2]);
    }
    uint64_t every = numbers[3], left = every; /* until the next checkpoint */
    if (argc < 6 || (is_appended && (is_overwritten || is_split))) stop(usage);
    if (is_split) check_second(argv[1]);
    hound_spec spec = {(uint32_t)numbers[0], (uint16_t)numbers[1], (uint16_t)numbers[2],
                       (uint16_t)((numbers[2] + 7) / 8), HOUND_INT};
    make_header(&spec);
    int32_t code = is_appended
                       ? hound_file_continue_with(&file, argv[1], &spec, is_durable, &found, header, header_length)
                       : hound_file_create_with(&file, argv[1], &spec, is_durable, is_overwritten, header,
                                                header_length);
    if (file.fault == EEXIST) stop("the file exists: --append continues it, --overwrite empties it");
    if (code < 0) stop(hound_file_reason(&file, code, room));
    hound_file_set_binary(0);
#ifdef SIGPIPE
    signal(SIGPIPE, SIG_IGN); /* the recording continues where nobody reads what it prints */
#endif

    size_t frame = (size_t)spec.bytes_per_sample * spec.channels, count, wanted, torn;
    do {
        has_room = is_split ? hound_file_frames_left(&file, split) : UINT64_MAX;
        wanted = least(least(left, sizeof block / frame), has_room > 0 ? has_room : split);
        count = hound_file_take(0, block, wanted * frame, &fault);
        if (fault) complain(strerror(fault));
        torn = count % frame, count /= frame;
        code = count > 0 && has_room == 0 ? said(go_on(argv[1], &spec)) : 0;
        is_taken = code < 0 && file.fault == EEXIST;
        if (code == 0) code = said(hound_file_write(&file, block, (uint64_t)count * spec.channels));
        if (code < 0) printf("lost %lu samples after %lu\n", (unsigned long)(count * spec.channels), recorded());
        if (file.has_rest) complain("a part of a block that was lost stays in the file");
        if ((left -= count) > 0) continue;
        left = every;
        if (said(hound_file_checkpoint(&file)) == 0) printf("%lu\n", recorded());
        fflush(stdout);
    } while (count == wanted && code != HOUND_TOO_LONG && code != HOUND_SYNC_FAILED && !is_taken);
    if (torn > 0) complain("the input ends within a frame, which isn't recorded");
    if (code == HOUND_TOO_LONG) complain("the file is as long as its header can count");
    if (said(hound_file_close(&file)) < 0)
        fprintf(stderr, "record: the header counts only %lu samples: repair the file\n", samples_in(file.counted));
    printf("recorded %lu samples\n", recorded());
    return !is_whole;
}
