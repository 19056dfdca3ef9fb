/* Repairs a recording that was cut off, in place: its two sizes become those of the whole frames that the file holds,
   and a missing pad byte is added. It prints how the file was found, and where it was cut off how many frames the
   header counted before. A file that is whole, or in which chunks follow the data, is only read, and may be read-only.
   With --to-end these chunks are taken for samples, too. A whole file isn't canonical where its RIFF size or its pad
   byte isn't as the format asks: no sample is concerned, so it stays as it is unless --canonical or --to-end is given.
   Copy the file first if it is the only one: some recorders leave older audio at the end, which then counts, and so do
   the bytes of a chunk that was itself cut off. After an error, or if it is killed, the file can be repaired again. A
   file that a recorder has locked, as record.c does, is rejected.
     cc -Ibindings/c bindings/c/repair.c bindings/lib/x86_64-linux/libhound_c.a -o repair && ./repair take.wav */
#include "hound_file.h"

static void stop(const char *what, const char *why) { exit((fprintf(stderr, "repair: %s: %s\n", what, why), 1)); }

static uint32_t mode_of(int argc, char **argv) {
    if (argc == 2) return HOUND_REPAIR;
    if (argc == 3 && !strcmp(argv[2], "--to-end")) return HOUND_REPAIR_TO_END;
    if (argc != 3 || strcmp(argv[2], "--canonical")) stop("usage", "repair FILE [--to-end | --canonical]");
    return HOUND_MAKE_CANONICAL;
}

static const char *state_of(const hound_repair_t *found) {
    switch (found->state) {
    case HOUND_WHOLE: return "whole";
    case HOUND_CUT_OFF: return "cut off";
    case HOUND_ALL_COUNTED: return "whole, but not canonical (see --canonical)";
    default: return "with chunks after the data";
    }
}

int main(int argc, char **argv) {
    char room[HOUND_FILE_SENTENCE];
    hound_file file;
    hound_repair_t found;
    hound_file_arguments(&argc, &argv);
    uint32_t mode = mode_of(argc, argv);
    int32_t code = hound_file_repair(&file, argv[1], mode, &found);
    if (code < 0) stop(argv[1], hound_file_reason(&file, code, room));
    printf("found %s: %lu frames", state_of(&found), (unsigned long)found.frames);
    if (found.state == HOUND_CUT_OFF)
        printf(", %s the header counted %lu", found.counted > found.frames ? "and" : "of which",
               (unsigned long)found.counted);
    printf(", %lu bytes left over\n", (unsigned long)found.left_over);
    return fflush(stdout) ? stop("standard output", "writing failed"), 1 : 0;
}
