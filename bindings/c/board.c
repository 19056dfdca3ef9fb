/* Records to a file of FatFs, and repairs one, on a computer without an operating system: see BOARD.md. Copy from it
   what you need. The file is open to read and write (FA_READ | FA_WRITE). */
#include "ff.h"
#include "hound.h"

/* Performs an effect, and reports it. A place after the end isn't sought to read, because FatFs would make the file
   longer. */
static void perform(FIL *file, hound_effect *effect, const uint8_t *block) {
    UINT count = effect->length, done = 0;
    int is_there = effect->place <= f_size(file);
    const uint8_t *bytes = effect->kind == HOUND_WRITE_BLOCK ? block : effect->bytes;
    FRESULT result = FR_INVALID_PARAMETER; /* for a kind that a newer library requests */
    switch (effect->kind) {
    case HOUND_READ:
        result = is_there ? f_lseek(file, (FSIZE_t)effect->place) : FR_OK;
        if (is_there && result == FR_OK) result = f_read(file, effect->bytes, count, &done);
        effect->length = count = done;
        break;
    case HOUND_WRITE:
    case HOUND_WRITE_BLOCK:
        result = f_lseek(file, (FSIZE_t)effect->place);
        if (result == FR_OK) result = f_write(file, bytes, count, &done);
        break;
    case HOUND_SHORTEN:
        result = is_there ? f_lseek(file, (FSIZE_t)effect->place) : FR_OK;
        if (is_there && result == FR_OK) result = f_truncate(file);
        done = count;
        break;
    case HOUND_SYNC: result = f_sync(file), done = count; break;
    case HOUND_SYNC_FOLDER: result = FR_OK; break; /* f_sync stores the name with the file. */
    }
    effect->report = result == FR_OK && done == count ? HOUND_DONE : HOUND_FAILED;
}

/* Performs all that the recorder requests: 0, or an error of hound.h. */
static int32_t finish(FIL *file, hound_recorder *recorder, const uint8_t *block) {
    int32_t code;
    while ((code = hound_recorder_next(recorder)) == 1) perform(file, &recorder->effect, block);
    return code;
}

/* Begins a recording in a file, which is emptied. */
static int32_t begin_recording(FIL *file, const hound_spec *spec, hound_recorder *recorder) {
    hound_effect effect;
    uint32_t number = 0;
    int32_t code;
    while ((code = hound_beginning(spec, number, &effect)) == 1) {
        perform(file, &effect, (const uint8_t *)"");
        if (effect.report != HOUND_DONE) return HOUND_NOT_PERFORMED;
        number++;
    }
    if (code == 0) code = hound_recorder_begin(spec, recorder);
    return code < 0 ? code : finish(file, recorder, (const uint8_t *)"");
}

/* Writes so many samples, as hound_encode_.. gave them. */
static int32_t write_block(FIL *file, hound_recorder *recorder, const uint8_t *block, uint32_t samples) {
    int32_t code = hound_recorder_write(recorder, samples);
    return code < 0 ? code : finish(file, recorder, block);
}

/* From here on all samples survive a power failure. */
static int32_t make_checkpoint(FIL *file, hound_recorder *recorder) {
    hound_recorder_checkpoint(recorder);
    return finish(file, recorder, (const uint8_t *)"");
}

/* Repairs a recording that was cut off. */
static int32_t repair_recording(FIL *file, hound_repair_t *found) {
    hound_repairer repairer;
    int32_t code;
    hound_repairer_begin(f_size(file), HOUND_REPAIR, &repairer);
    while ((code = hound_repairer_next(&repairer, found)) == 1)
        perform(file, &repairer.effect, (const uint8_t *)"");
    return code;
}

/* Finds where the samples begin, and how many the header counts. */
static int32_t open_recording(FIL *file, hound_info_t *info) {
    hound_walk walk = HOUND_WALK_BEGIN;
    int32_t code;
    while ((code = hound_walk_next(&walk, info)) == 1) perform(file, &walk.effect, (const uint8_t *)"");
    return code;
}
