/* Records by bindings/c/board.c to a file in memory. At each call in turn that changes the file the power is lost: of
   what wasn't synced then any sectors are there, and the old or the new length. The file is repaired, while the power
   is lost again, and read: all samples of the last checkpoint have to be there, in their order. Then each call in turn
   fails, and the recording goes on. scripts/try_portable.sh runs this on boards; it needs 24 KiB of memory. */
#include "../../c/board.c"
#include <stdio.h>
#include <stdlib.h>
#include <string.h>

enum { SECTOR = 64, ROOM = 8192, BLOCKS = 24, SAMPLES = 64, BYTES = SAMPLES * 3 };

static uint8_t now[ROOM], stored[ROOM];
static FSIZE_t stored_length;
static int until_fault; /* the last of so many calls that change the file fails, unless these are 0 */
static int is_off;      /* the power, so that each call fails */
static int loses_power; /* a fault is a loss of power */
static uint32_t state;
static uint32_t some(uint32_t below) {
    state = state * 1664525u + 1013904223u;
    return (uint32_t)(((uint64_t)state * below) >> 32);
}

static void must(int holds, const char *what) {
    if (holds) return;
    printf("board: %s\n", what);
    exit(1);
}

/* Whether a call fails. */
static int fails(void) {
    if (is_off) return 1;
    if (until_fault == 0 || --until_fault > 0) return 0;
    is_off = loses_power;
    return 1;
}
FRESULT f_read(FIL *file, void *out, UINT count, UINT *done) {
    *done = count < file->length - file->place ? count : file->length - file->place;
    memcpy(out, now + file->place, *done);
    file->place += *done;
    return FR_OK;
}
FRESULT f_write(FIL *file, const void *bytes, UINT count, UINT *done) {
    int was_off = is_off, is_faulty = fails();
    must(file->place + count <= ROOM, "the file has room");
    *done = was_off ? 0 : !is_faulty ? count : count == 4 ? 4 * some(2) : some(count + 1); /* a size is in one sector */
    memcpy(now + file->place, bytes, *done);
    file->place += *done;
    if (file->length < file->place) file->length = file->place;
    return is_faulty ? FR_DISK_ERR : FR_OK;
}
FRESULT f_lseek(FIL *file, FSIZE_t place) {
    must(place <= file->length, "a place of the file");
    file->place = place;
    return FR_OK;
}
FRESULT f_truncate(FIL *file) {
    if (fails()) return FR_DISK_ERR;
    memset(now + file->place, 0, ROOM - file->place);
    file->length = file->place;
    return FR_OK;
}
FRESULT f_sync(FIL *file) {
    if (fails()) return FR_DISK_ERR;
    memcpy(stored, now, ROOM);
    stored_length = file->length;
    return FR_OK;
}
/* The power is back. */
static void restart(FIL *file) {
    for (size_t i = 0; i < ROOM; i += SECTOR)
        if (some(2)) memcpy(stored + i, now + i, SECTOR);
    file->length = some(2) ? file->length : stored_length, file->place = 0;
    memset(stored + file->length, 0, ROOM - file->length);
    memcpy(now, stored, ROOM), stored_length = file->length;
    is_off = 0, until_fault = 0;
}

static const hound_spec spec = {48000, 2, 24, 3, HOUND_INT};
static uint8_t block[BYTES];
static int32_t samples[SAMPLES];
static uint32_t accepted[BLOCKS], count, kept; /* the blocks that were, and how many of them a checkpoint counted */
static int32_t sample_at(uint32_t number, uint32_t i) { return (int32_t)((number * SAMPLES + i) * 2654435761u) >> 8; }

/* Records until the power is lost: whether all of it was. */
static int record(FIL *file) {
    static hound_recorder recorder;
    int is_whole = 1;
    count = kept = 0;
    if (begin_recording(file, &spec, &recorder) < 0) return 0;
    for (uint32_t i = 0; i < BLOCKS; i++) {
        for (uint32_t j = 0; j < SAMPLES; j++) samples[j] = sample_at(i, j);
        must(hound_encode_i32(&spec, samples, SAMPLES, block, sizeof block) == BYTES, "a block is encoded");
        if (write_block(file, &recorder, block, SAMPLES) == 0) accepted[count++] = i;
        else is_whole = 0;
        if (is_off) return 0;
        if (i % 4 < 3) continue;
        if (make_checkpoint(file, &recorder) == 0) kept = count;
        else is_whole = 0;
        if (is_off) return 0;
    }
    return is_whole;
}

/* Reads a recording: how many samples it has, of which the first are those that a checkpoint counted. */
static uint32_t read_back(FIL *file) {
    hound_info_t info;
    int32_t code = open_recording(file, &info);
    UINT done;
    if (code < 0) return must(kept == 0, "a file with a checkpoint has a header"), 0;
    must(info.samples >= kept * SAMPLES && info.data_start + 3 * info.samples <= file->length,
         "the header counts what a checkpoint counted, and what is there");
    must(f_lseek(file, (FSIZE_t)info.data_start) == FR_OK, "the samples are sought");
    for (uint32_t i = 0; i < info.samples; i += SAMPLES) {
        uint32_t more = info.samples - i < SAMPLES ? info.samples - i : SAMPLES;
        must(f_read(file, block, more * 3, &done) == FR_OK && done == more * 3, "the samples are read");
        must(hound_decode_i32(&info.spec, block, done, samples, SAMPLES) == (int64_t)more, "the samples are decoded");
        for (uint32_t j = 0; j < more && i / SAMPLES < kept; j++)
            must(samples[j] == sample_at(accepted[i / SAMPLES], j), "the samples of the last checkpoint");
    }
    return info.samples;
}

/* Begins a file without bytes, and lets a call of it fail. */
static void begin(FIL *file, int until, int is_loss) {
    memset(now, 0, ROOM), memset(stored, 0, ROOM);
    file->place = file->length = stored_length = 0;
    state = (uint32_t)until, until_fault = until, loses_power = is_loss, is_off = 0;
}

int main(void) {
    uint32_t all = 0, repairs = 0, losses, faults;
    hound_repair_t found;
    FIL file;
    for (losses = 0;; losses++) {
        begin(&file, (int)losses + 1, 1);
        if (record(&file)) break;
        restart(&file);
        all += read_back(&file);
        for (int left = 1; left < 9; left++) { /* the repair has so many calls until its power is lost */
            until_fault = left;
            if (repair_recording(&file, &found) >= 0) break;
            restart(&file);
            read_back(&file);
            repairs++;
        }
        until_fault = 0;
        must(repair_recording(&file, &found) == 0 || kept == 0, "a file is repaired");
        must(kept == 0 || read_back(&file) == found.frames * 2, "a repair counts all frames");
    }
    must(read_back(&file) == BLOCKS * SAMPLES, "a recording without a loss of power is whole");
    for (faults = 0;; faults++) {
        begin(&file, (int)faults + 1, 0);
        if (record(&file)) break;
        uint32_t counted = read_back(&file);
        must(counted == kept * SAMPLES || counted == count * SAMPLES, "a recording that goes on has what it accepted");
        must(kept < count || count == 0 || file.length == 68 + kept * BYTES, "a block that failed is cut off");
        all += counted;
    }
    /* A chunk that seems to end after the file isn't sought, since FatFs would make the file longer. */
    begin(&file, 0, 0);
    memcpy(now, "RIFF\377\377\0\0WAVELIST\377\377\0\0", 20), file.length = 20;
    must(repair_recording(&file, &found) < 0 && file.length == 20, "a file that ends within a chunk stays");
    printf("board: the power was lost %lu times in recordings and %lu times in repairs, %lu calls failed; all "
           "%lu samples are there\n",
           (unsigned long)losses, (unsigned long)repairs, (unsigned long)faults, (unsigned long)all);
    return 0;
}
