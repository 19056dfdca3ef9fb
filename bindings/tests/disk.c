/* Recorders and repairers over a simulated disk, through hound.h alone. Each recording has a random spec, a file that
   is new or that another program left, which may be emptied, and random blocks and checkpoints. The disk tears writes,
   fails, loses reports and fails syncs. Then the program is killed at a random effect, or the power is lost, after
   which any part of what wasn't synced is there. What is left is recorded further or repaired; a repair is killed, too,
   and done again.

   After each of these the file is read by a reader of this test's own, which knows the format and nothing of the
   library:
   - The header counts no more samples than the file holds, and exactly the first ones that were accepted.
   - What a checkpoint counted is there after a kill, and in a durable recording also after a loss of power. So is the
     header, once the effects are done with which a file and its recorder begin.
   - A repair counts all whole frames of the file, and changes nothing else.
   - A request ends within as many effects as hound.h promises, and an effect without a report comes again.

     disk [RECORDINGS [FIRST]]      what happens in a recording depends on its number alone

   The environment variable FAULT names a wrong version of what performs the effects, or of what is requested. Each has
   to be found. Not tried are the exceptions from the promises: a size of which a loss of power stores some of its four
   bytes, and samples that look like chunks. */
#include "hound.h"
#include <stdio.h>
#include <stdlib.h>
#include <string.h>

static const char *fault;
static int has(const char *name) { return fault && !strcmp(name, fault); }

static uint64_t state;
static uint32_t some(uint32_t below) {
    state ^= state >> 12, state ^= state << 25, state ^= state >> 27;
    return (uint32_t)(((state * 0x2545F4914F6CDD1D) >> 32) * below >> 32);
}
static int one_in(uint32_t count) { return some(count) == 0; }

static long number; /* of the recording */
static void must(int holds, const char *what) {
    if (!holds) {
        printf("disk: recording %ld: %s\n", number, what);
        exit(1);
    }
}

static uint32_t le16(const uint8_t *p) { return p[0] | (uint32_t)p[1] << 8; }
static uint32_t le32(const uint8_t *p) { return le16(p) | le16(p + 2) << 16; }
static void put16(uint8_t *p, uint32_t value) { p[0] = (uint8_t)value, p[1] = (uint8_t)(value >> 8); }
static void put32(uint8_t *p, uint32_t value) { put16(p, value), put16(p + 2, value >> 16); }

/* The disk, with one file on it. */
enum { ROOM = 32768, CHANGES = 64 };
typedef struct {
    uint64_t length;
    uint8_t bytes[ROOM]; /* 0 from the length on */
} contents;
typedef struct {
    int is_cut, is_one; /* it is stored as a whole, or not at all */
    uint64_t place;
    size_t length, from; /* of its bytes in `waiting` */
} change;
static contents now, stored; /* as the file is read, and as it is on the disk */
static change changes[CHANGES]; /* those that aren't stored yet */
static uint8_t waiting[ROOM];
static size_t change_count, waiting_count;
static int is_durable; /* a sync stores; else it does nothing, and the power stays */
static uint64_t start; /* of the data; 0 without a header */
/* Whether a write of the data length stopped within its four bytes: in the file as it is read, or in one that a loss of
   power may leave. */
static int is_torn, may_be_torn;

static void cut(contents *file, uint64_t length) {
    if (length >= file->length) return;
    memset(file->bytes + length, 0, (size_t)(file->length - length));
    file->length = length;
}
static void copy_file(contents *to, const contents *from) {
    cut(to, from->length);
    memcpy(to->bytes, from->bytes, (size_t)from->length), to->length = from->length;
}

/* Stores the changes that wait: all of them, or any part. The file's length, each part of a first header and the four
   bytes of a size are each stored as a whole; of other bytes any sectors are, which may be as small as a byte. */
static void store(int is_all) {
    static const uint32_t sectors[] = {1, 2, 16, 64, 512, 4096};
    uint32_t sector = sectors[some(6)], chance = some(5); /* so many of four are stored */
    uint64_t length = stored.length;
    if (is_all) chance = 4, may_be_torn = is_torn;
    for (size_t i = 0; i < change_count; i++) {
        const change *c = &changes[i];
        uint64_t end = c->place + c->length;
        int is_stored = 0;
        for (size_t j = 0; j < c->length; j++) {
            if (j == 0 || (!c->is_one && (c->place + j) % sector == 0)) is_stored = some(4) < chance;
            if (is_stored) stored.bytes[c->place + j] = waiting[c->from + j];
        }
        if (some(4) >= chance) continue; /* the length stays */
        if (c->is_cut && c->place < length)
            memset(stored.bytes + c->place, 0, ROOM - (size_t)c->place), length = c->place;
        else if (c->length > 0 && length < end) length = end;
    }
    memset(stored.bytes + length, 0, ROOM - (size_t)length), stored.length = length;
    change_count = waiting_count = 0;
}
static void let_wait(int is_cut, uint64_t place, const uint8_t *bytes, size_t length) {
    if (!is_durable) return;
    if (change_count == CHANGES || waiting_count + length > ROOM) store(1); /* as a system does by itself */
    change c = {is_cut, length <= 4 || start == 0, place, length, waiting_count};
    changes[change_count++] = c;
    memcpy(waiting + waiting_count, bytes, length), waiting_count += length;
}
static void write_at(uint64_t place, const uint8_t *bytes, size_t length) {
    must(place + length <= ROOM, "a place within the test's disk");
    memcpy(now.bytes + place, bytes, length);
    if (length > 0 && now.length < place + length) now.length = place + length;
    let_wait(0, place, bytes, length);
}
static void cut_at(uint64_t place) {
    if (place >= now.length) return;
    cut(&now, place);
    let_wait(1, place, now.bytes, 0);
}

/* The reader of this test: what a file's header says. */
typedef struct {
    int is_read;
    uint32_t riff, counted, frame;
    uint64_t start;
} reading;
/* Whether the content of a fmt chunk is all there: some of its last bytes may be lost, and then they are 0. */
static int is_fmt(const uint8_t *b) {
    return le16(b + 14) > 0 && (le16(b) != 0xfffe || (le16(b + 16) >= 22 && le16(b + 18) > 0));
}
static reading read_header(const contents *file) {
    reading found = {0, 0, 0, 0, 0};
    const uint8_t *b = file->bytes;
    if (file->length < 12 || memcmp(b, "RIFF", 4) || memcmp(b + 8, "WAVE", 4)) return found;
    found.riff = le32(b + 4);
    for (uint64_t at = 12; at + 8 <= file->length;) {
        uint32_t length = le32(b + at + 4);
        if (!memcmp(b + at, "data", 4)) {
            found.start = at + 8, found.counted = length, found.is_read = found.frame > 0;
            return found;
        }
        if (!memcmp(b + at, "fmt ", 4) && length >= 16 && at + 8 + length <= file->length && is_fmt(b + at + 8))
            found.frame = le16(b + at + 20);
        at += 8 + (uint64_t)length + length % 2;
    }
    return found;
}

/* Whether a file has a whole header. */
static int has_header(const contents *file) {
    reading header = read_header(file);
    return header.is_read && file->length >= header.start;
}

/* What has to be true of the recording. */
static hound_spec spec;
static uint32_t frame;         /* how many bytes it has */
static uint8_t accepted[ROOM]; /* the bytes of the samples that were */
static uint64_t accepted_count, promised; /* how many these are, and how many of them a checkpoint counted */
static int64_t found_count; /* what another program's header counts, where that is too much or a torn frame; else -1 */
static int is_too_much;     /* it is more than the file holds */
static int may_follow;      /* a cut failed, so bytes may follow the data */
static int has_riff;        /* the RIFF size counted what the data length counts */
static int has_lost, had_header; /* whether something was lost, and whether a header was stored before */
static int is_emptying; /* what was there may come back, since the file that was cut off isn't synced yet */
static int has_begun;   /* all effects are done with which the file and its recorder begin */

/* Loses the power, and has it back; or the system drops what it couldn't store. */
static void lose(void) {
    has_lost = 1, had_header = has_header(&stored), has_riff = 0;
    store(0), is_torn = may_be_torn;
    copy_file(&now, &stored);
}

static uint64_t padded(uint64_t count) { return count + count % 2; }

/* How a file has to be found, by the rules of docs/BINDINGS.md and docs/DECISIONS.md. */
typedef struct {
    uint32_t state;
    uint64_t held; /* how many bytes the whole frames have */
    uint64_t rest; /* how many bytes follow the header */
} damage;
static int has_tag(const contents *file, uint64_t place) {
    const uint8_t *tag = file->bytes + place;
    return place + 4 <= file->length && (!memcmp(tag, "LIST", 4) || !memcmp(tag, "id3 ", 4));
}
static damage damage_of(const contents *file, int is_to_end) {
    reading header = read_header(file);
    damage found = {HOUND_CUT_OFF, 0, file->length - header.start};
    uint64_t counted = header.counted, end = header.start + counted;
    found.held = found.rest - found.rest % header.frame;
    /* A byte of 0 after whole frames of an odd length is their pad byte. */
    if (counted % 2 == 1 && counted % header.frame == 0 && file->length == end + 1 && file->bytes[end] == 0)
        found.held = counted;
    int is_right = counted == found.held, lacks_pad = counted % 2 == 1 && file->length == end;
    if (!is_to_end && (has_tag(file, end) || has_tag(file, end + counted % 2)))
        found.state = HOUND_HAS_CHUNKS_AFTER_DATA, found.held = counted - counted % header.frame;
    else if (is_right && header.riff == header.start - 8 + padded(counted) && !lacks_pad) found.state = HOUND_WHOLE;
    else if (is_right) found.state = HOUND_ALL_COUNTED;
    return found;
}

/* Looks at the file after a kill, a loss of power, or an Ok. */
static void check_file(void) {
    reading header = read_header(&now);
    if (is_emptying) return;
    if (!has_header(&now)) {
        must(has_lost ? !had_header && promised == 0 : start == 0, "a file that had a header has one");
        must(!has_begun, "a file that was begun has a header");
        return;
    }
    must(header.frame == frame && (start == 0 || header.start == start), "the header is that of the recording");
    start = header.start; /* a part of a header may become a whole one over what was there before */
    uint64_t held = now.length - start;
    must(held >= promised && !memcmp(now.bytes + start, accepted, (size_t)promised),
         "what a checkpoint counted is there");
    if (found_count >= 0 && (is_torn || (is_too_much && header.counted == found_count))) return;
    must(header.counted <= held, "the header counts no more than the file holds");
    must(header.counted <= accepted_count, "the header counts no more than was accepted");
    must(!memcmp(now.bytes + start, accepted, header.counted), "it counts the first of the accepted samples");
    if (is_torn) return;
    must(header.counted >= promised, "the header counts what a checkpoint counted");
    must(header.counted % frame == 0 || header.counted == found_count, "the header counts whole frames");
    int is_enough = header.riff >= start - 8 + header.counted;
    must(is_enough || !has_riff || header.counted == found_count,
         "the RIFF size counts what the data length counts");
    has_riff = is_enough;
}

/* What happened, for the last line. */
static long effects, kills, torn_writes, lost_reports, failures, failed_syncs, losses, repairs, repeated, resumed;

/* What goes wrong: the program is killed at the last of so many effects, and one of so many fails. 0 is never. */
static uint32_t until_kill, fault_rate;
static int is_killed_now(void) { return until_kill > 0 && --until_kill == 0; }
enum { GOES_ON, IS_KILLED };

static hound_recorder recorder;
static hound_repairer repairer;
static uint8_t block[ROOM];
static int is_repair;            /* it is the repairer that requests effects */
static uint32_t changed;         /* how many effects of the last repair wrote or synced */
static int has_synced;           /* something was synced since a repair began */
static int are_sizes_written;    /* since the last sync */

/* The wrong versions of what performs the effects. */
static uint8_t late_bytes[ROOM];
static hound_effect late; /* a write that is performed later */
static int put_off(const hound_effect *effect, const uint8_t *bytes) {
    late = *effect;
    memcpy(late_bytes, bytes, effect->length);
    return 1;
}
static void perform_late(void) {
    if (late.kind != HOUND_NOTHING) write_at(late.place, late_bytes, late.length);
    late.kind = HOUND_NOTHING;
}
/* Writes the sizes that the recorder requests after this sync. */
static void write_sizes(void) {
    hound_recorder next = recorder;
    for (int i = 0; i < 2; i++) {
        next.effect.report = HOUND_DONE;
        if (hound_recorder_next(&next) != 1 || next.effect.kind != HOUND_WRITE) return;
        write_at(next.effect.place, next.effect.bytes, next.effect.length);
    }
}
static int write_more(const hound_effect *effect, const uint8_t *bytes, uint32_t more) {
    uint8_t size[4];
    put32(size, le32(bytes) + more);
    write_at(effect->place, size, 4);
    return 1;
}
/* Whether this is done wrong instead of what is requested. */
static int is_done_wrong(const hound_effect *effect, const uint8_t *bytes) {
    int is_size = effect->kind == HOUND_WRITE && effect->length == 4;
    int is_riff = is_size && effect->place == 4, is_data = is_size && !is_riff;
    if (!fault) return 0;
    if (start == 0)
        return (effect->kind == HOUND_SHORTEN && has("a file isn't emptied"))
               || (effect->kind == HOUND_SYNC && has("a file isn't synced once it is emptied"));
    switch (effect->kind) {
    case HOUND_SYNC:
        if (has("a repair writes the data length first") && are_sizes_written && until_kill != 1) perform_late();
        if (has("the sizes before the sync of the samples") && !are_sizes_written && !is_repair)
            return write_sizes(), until_kill == 1;
        return has("no sync") || has(are_sizes_written ? "no sync of the sizes" : "no sync of the samples");
    case HOUND_WRITE_BLOCK:
        if (has("the data length before the samples")) return put_off(effect, bytes);
        if (has("a block a byte further")) return write_at(effect->place + 1, bytes, effect->length), 1;
        if (has("a block at the end of the file")) return write_at(now.length, bytes, effect->length), 1;
        return has("a block isn't written");
    case HOUND_SHORTEN: return has("no cut");
    case HOUND_WRITE:
        if (is_riff && is_repair && has("a repair writes the data length first")) return put_off(effect, bytes);
        if (is_data && has("a size a frame too large")) return write_more(effect, bytes, frame);
        return has(is_riff ? "no RIFF size" : is_data ? "no data length" : "no pad byte");
    default: return 0;
    }
}
static uint16_t wrong_report(const hound_effect *effect) {
    int is_sync = effect->kind == HOUND_SYNC;
    if (effect->report == HOUND_PENDING && has("a lost report is taken for done")) return HOUND_DONE;
    if (effect->report == HOUND_FAILED && is_sync && has("a failed sync is taken for done")) return HOUND_DONE;
    if (effect->report == HOUND_FAILED && !is_sync && has("a failed write is taken for done")) return HOUND_DONE;
    return effect->report;
}

/* Performs an effect, or as many of its bytes. */
static void perform_part(const hound_effect *effect, const uint8_t *bytes, size_t length) {
    int is_all = length == effect->length, is_size = start > 0 && effect->kind == HOUND_WRITE && effect->length == 4;
    if (effect->kind == HOUND_SYNC_FOLDER) return; /* This disk always has the file's name. */
    if (effect->kind == HOUND_SYNC) {
        if (is_durable) store(1);
        are_sizes_written = 0, has_synced = 1;
    } else if (effect->kind == HOUND_SHORTEN) cut_at(effect->place);
    else if (length > 0) {
        write_at(effect->place, bytes, length);
        torn_writes += !is_all, are_sizes_written |= is_size;
        if (is_size && effect->place == 4) has_riff = is_all;
        if (is_size && effect->place + 4 == start) is_torn = !is_all, may_be_torn |= is_torn;
        if (is_size && effect->place + 4 == start && has("the data length before the samples")) perform_late();
    }
}

/* Performs a read, and reports it. */
static int perform_read(hound_effect *effect) {
    uint64_t from = effect->place < now.length ? effect->place : now.length;
    must(effect->length <= HOUND_EFFECT_BYTES, "a part that has room in an effect");
    if (is_killed_now()) return IS_KILLED;
    if (effect->length > now.length - from) effect->length = (uint32_t)(now.length - from);
    memcpy(effect->bytes, now.bytes + from, effect->length);
    effect->report = HOUND_DONE;
    if (fault_rate && one_in(2 * fault_rate)) effect->report = some(2) ? HOUND_FAILED : HOUND_PENDING;
    return GOES_ON;
}

/* Performs an effect, as far as the disk lets it, and reports it. */
static int perform(hound_effect *effect) {
    const uint8_t *bytes = effect->kind == HOUND_WRITE_BLOCK ? block : effect->bytes;
    int is_sync = effect->kind == HOUND_SYNC || effect->kind == HOUND_SYNC_FOLDER;
    int is_cut = effect->kind == HOUND_SHORTEN;
    effects++;
    if (effect->kind == HOUND_READ) return perform_read(effect);
    must(is_sync || is_cut || effect->kind == HOUND_WRITE || effect->kind == HOUND_WRITE_BLOCK, "an effect of hound.h");
    size_t part = is_sync || is_cut ? 0 : some(effect->length + 1);
    int is_wrong = is_done_wrong(effect, bytes);
    if (is_killed_now()) {
        if (!is_wrong && !is_sync && (!is_cut || one_in(2))) perform_part(effect, bytes, part);
        return IS_KILLED;
    }
    effect->report = HOUND_DONE;
    if (is_wrong) return GOES_ON;
    if (!fault_rate || !one_in(fault_rate)) {
        perform_part(effect, bytes, effect->length);
        return GOES_ON;
    }
    /* It fails, or its report is lost, after nothing, a part or all of it is done. A sync done in part has failed. */
    int done = (int)some(3), is_failed = some(2) || (is_sync && done == 1);
    if (done == 2) perform_part(effect, bytes, effect->length);
    if (done == 1 && !is_sync && !is_cut) perform_part(effect, bytes, part);
    if (is_sync && is_failed && is_durable && one_in(2)) lose(); /* else what couldn't be stored waits */
    lost_reports += done == 2, failures += is_failed, failed_syncs += is_sync && is_failed;
    may_follow |= is_cut && is_failed;
    effect->report = is_failed ? HOUND_FAILED : HOUND_PENDING;
    effect->report = wrong_report(effect);
    return GOES_ON;
}

static int is_same(const hound_effect *a, const hound_effect *b) {
    return a->kind == b->kind && a->place == b->place && a->length == b->length
           && (a->kind != HOUND_WRITE || !memcmp(a->bytes, b->bytes, a->length));
}

/* Instead of a code: the program was killed, or makes another request before this one is done. */
enum { WAS_KILLED = 100, IS_LEFT };

/* Performs what the recorder requests, in which at most so many effects are reported. */
static int32_t record(uint32_t most) {
    hound_recorder asking;
    uint32_t reported = 0, failed = 0, failed_cuts = 0;
    int is_pending = 0;
    for (;;) {
        int32_t code = hound_recorder_next(&recorder);
        if (has("a recorder requests an effect for ever") && code != 1 && reported > 0) recorder = asking, code = 1;
        must(!is_pending || (code == 1 && is_same(&recorder.effect, &asking.effect)),
             "an effect without a report comes again");
        if (code != 1) {
            must(code == 0 || failed + failed_cuts > 0 || code == HOUND_SYNC_FAILED, "an error is of what failed");
            must(code != 0 || failed == 0, "what failed is an error");
            must(code == HOUND_SYNC_FAILED || hound_recorder_next(&recorder) == 0, "after a request nothing is to do");
            return code;
        }
        must(reported < most, "a request ends within as many effects as hound.h promises");
        must(recorder.effect.kind != HOUND_READ, "a recorder reads nothing");
        must(recorder.effect.kind != HOUND_WRITE_BLOCK || recorder.effect.place >= start + accepted_count,
             "a block is written after those that were accepted");
        asking = recorder;
        if (perform(&recorder.effect) == IS_KILLED) return WAS_KILLED;
        is_pending = recorder.effect.report == HOUND_PENDING, reported += !is_pending;
        if (is_pending && one_in(4)) return IS_LEFT;
        if (recorder.effect.report != HOUND_FAILED) continue;
        if (recorder.effect.kind == HOUND_SHORTEN) failed_cuts++;
        else failed++;
    }
}

/* Looks at what an Ok checkpoint left. */
static void check_checkpoint(void) {
    reading header = read_header(&now);
    uint64_t end = start + padded(accepted_count);
    must(header.is_read && header.counted == accepted_count, "a checkpoint counts all that was accepted");
    must(header.riff == end - 8, "the RIFF size after a checkpoint is that of the data and their pad byte");
    must(now.length >= end && (accepted_count % 2 == 0 || now.bytes[end - 1] == 0), "the pad byte after a checkpoint");
    must(may_follow || now.length == end, "nothing follows the data after a checkpoint");
    promised = accepted_count, found_count = -1;
    check_file();
}

/* Requests a checkpoint. */
static int32_t checkpoint(void) {
    hound_recorder_checkpoint(&recorder);
    int32_t code = record(8);
    must(recorder.data_length == accepted_count, "a checkpoint accepts nothing");
    if (code == 0) check_checkpoint();
    return code;
}

/* Requests a block. */
static int32_t write_block(int is_dead) {
    uint32_t samples = some(accepted_count > ROOM / 2 ? 1 : one_in(4) ? 40 : 6) * spec.channels;
    int is_unfinished = spec.channels > 1 && one_in(16);
    if (is_unfinished) samples += 1 + some(spec.channels - 1u);
    uint64_t length = (uint64_t)samples * (frame / spec.channels);
    for (uint64_t i = 0; i < length; i++) block[i] = (uint8_t)(128 + some(128)); /* no tag, and no pad byte */
    int32_t code = hound_recorder_write(&recorder, samples);
    if (is_dead) {
        must(code == HOUND_SYNC_FAILED, "after a failed sync no block is taken");
        return code;
    }
    must(code == (is_unfinished ? HOUND_UNFINISHED_FRAME : 0), "a block is requested if it is of whole frames");
    if (code < 0) return 0;
    code = record(11);
    if (code == 0) memcpy(accepted + accepted_count, block, (size_t)length), accepted_count += length;
    must(recorder.data_length == accepted_count, "a block is accepted if its write succeeded");
    return code;
}

/* Records until the program is killed, a sync fails, or it has enough. */
static int32_t record_blocks(void) {
    int32_t code = 0;
    int is_dead = 0;
    for (uint32_t left = some(12); left > 0 && code != WAS_KILLED; left--) {
        code = some(3) ? write_block(is_dead) : checkpoint();
        must(!is_dead || code == HOUND_SYNC_FAILED, "after a failed sync each call is an error");
        is_dead |= code == HOUND_SYNC_FAILED;
    }
    if (code != WAS_KILLED && !is_dead && some(4)) code = checkpoint();
    return code;
}

/* Looks at a file, or repairs it. */
static int32_t repair(uint32_t mode, hound_repair_t *found) {
    hound_repairer asking;
    uint64_t reads = 0;
    uint32_t failed = 0;
    int is_pending = 0;
    is_repair = 1, changed = 0;
    hound_repairer_begin(now.length, mode, &repairer);
    for (;;) {
        int32_t code = hound_repairer_next(&repairer, found);
        hound_effect *effect = &repairer.effect;
        if (has("a repairer requests a part for ever") && code == 1 && reads > 2) repairer = asking;
        if (has("a repairer counts a frame less") && code == 1 && effect->kind == HOUND_WRITE
            && effect->place + 4 == start && le32(effect->bytes) >= frame)
            put32(effect->bytes, le32(effect->bytes) - frame);
        must(!is_pending || (code == 1 && is_same(effect, &asking.effect)), "an effect without a report comes again");
        if (code != 1) {
            must(code == 0 || failed > 0, "an error is of what failed");
            must(failed == 0 || code == HOUND_SYNC_FAILED || code == HOUND_NOT_PERFORMED, "what failed is an error");
            is_repair = 0;
            return code;
        }
        must(effect->kind == HOUND_READ || mode != HOUND_FIND_DAMAGE, "a look changes nothing");
        must(effect->kind != HOUND_SHORTEN && effect->kind != HOUND_WRITE_BLOCK, "a repair cuts nothing off");
        must(reads <= now.length / 8 + 16 && (effect->kind == HOUND_READ || changed < 7),
             "a repair ends within as many effects as hound.h promises");
        asking = repairer;
        if (perform(effect) == IS_KILLED) break;
        is_pending = effect->report == HOUND_PENDING, failed += effect->report == HOUND_FAILED;
        if (effect->kind == HOUND_READ) reads++;
        else changed += !is_pending;
    }
    is_repair = 0;
    return WAS_KILLED;
}

/* Looks at a file until no read fails, and compares what is found with what this test finds. */
static int32_t look(hound_repair_t *found) {
    int32_t code = HOUND_NOT_PERFORMED;
    if (!has_header(&now)) return HOUND_ENDED;
    while (code == HOUND_NOT_PERFORMED) code = repair(HOUND_FIND_DAMAGE, found);
    reading header = read_header(&now);
    damage wanted = damage_of(&now, 0);
    must(code == WAS_KILLED
             || (code == 0 && found->state == wanted.state && found->frames == wanted.held / frame
                 && found->data_start == start && found->data_length == header.counted && found->length == now.length
                 && found->counted == header.counted / frame),
         "the damage that is there is found");
    return code;
}

/* Repairs a file until that is done, through kills, failures and losses of power, and looks at what each leaves. */
static void repair_until_done(uint32_t mode) {
    static contents before, wanted;
    copy_file(&before, &now), copy_file(&wanted, &now);
    damage found = damage_of(&before, mode == HOUND_REPAIR_TO_END);
    int mends = found.state == HOUND_CUT_OFF || (found.state == HOUND_ALL_COUNTED && mode != HOUND_REPAIR);
    if (mends) {
        put32(wanted.bytes + 4, (uint32_t)(start - 8 + padded(found.held)));
        put32(wanted.bytes + start - 4, (uint32_t)found.held);
        if (found.held % 2 == 1 && wanted.length == start + found.held) wanted.length++;
        /* Until that is done the header may count a torn frame. */
        uint64_t counted = read_header(&before).counted;
        accepted_count = found.held < counted && counted <= found.rest ? counted : found.held;
        memcpy(accepted, before.bytes + start, (size_t)accepted_count);
    }
    repairs++, has_lost = has_synced = 0;
    for (int round = 0;; round++) {
        until_kill = round < 4 && some(3) ? 1 + some(16) : 0;
        fault_rate = round < 4 && one_in(3) ? 2 + some(6) : 0;
        hound_repair_t reported;
        int32_t code = repair(mode, &reported);
        must(code != 0 || round > 0 || (reported.frames == found.held / frame && reported.state == found.state),
             "a repair reports how the file was");
        if (code == 0) break;
        kills += code == WAS_KILLED, repeated++;
        if (code == WAS_KILLED && is_durable && one_in(3)) lose(), losses++;
        check_file();
        if (has_lost && !has_header(&now)) return;
        if (has_lost && !has_synced) { /* This may be another file than before. */
            repair_until_done(mode);
            return;
        }
    }
    if (is_durable && changed > 0) lose(), losses++; /* Else the file was found whole, and isn't synced. */
    /* Where a repair was stopped before the pad byte, the next one finds the file whole without it. */
    int lacks_pad = found.held % 2 == 1 && now.length == start + found.held;
    must(now.length == wanted.length || lacks_pad, "a repair leaves the file's length, or adds a pad byte");
    must(!memcmp(now.bytes, wanted.bytes, (size_t)now.length),
         "a repair counts all whole frames, and changes only that");
    is_torn = 0;
    if (mends && (!is_durable || changed > 0)) accepted_count = promised = found.held, found_count = -1;
    check_file();
}

/* Writes the header of another program, which may have other chunks before the data. */
static void make_header(uint8_t *b, int is_short) {
    uint32_t width = frame / spec.channels, extra = some(3) ? 0 : 2 * some(6), at = 12;
    uint32_t length = is_short ? 16 : 40, lead = one_in(6) ? 1 + some(30) : 0;
    memcpy(b, "RIFF    WAVE", 12);
    if (lead) memcpy(b + at, "bext", 4), put32(b + at + 4, lead), at += 8 + lead + lead % 2;
    memcpy(b + at, "fmt ", 4), put32(b + at + 4, length);
    put16(b + at + 8, is_short ? (spec.sample_format == HOUND_FLOAT ? 3 : 1) : 0xfffe);
    put16(b + at + 10, spec.channels), put32(b + at + 12, spec.sample_rate);
    put32(b + at + 16, spec.sample_rate * frame), put16(b + at + 20, frame);
    put16(b + at + 22, width * 8);
    if (!is_short) {
        static const uint8_t rest[] = {0, 0, 0, 0, 0x10, 0, 0x80, 0, 0, 0xaa, 0, 0x38, 0x9b, 0x71};
        put16(b + at + 24, 22), put16(b + at + 26, spec.bits_per_sample);
        put16(b + at + 32, spec.sample_format == HOUND_FLOAT ? 3 : 1), memcpy(b + at + 34, rest, sizeof rest);
    }
    at += 8 + length;
    if (extra) memcpy(b + at, "LIST", 4), put32(b + at + 4, extra), at += 8 + extra;
    memcpy(b + at, "data", 4), start = at + 8;
}

/* Makes the file that a recording begins with: none, or one that another program has left, which is stored. */
static void make_file(void) {
    static const uint16_t bits[] = {8, 16, 24, 24, 32, 32}, widths[] = {1, 2, 3, 4, 4, 4};
    uint32_t k = some(6);
    hound_spec made = {some(2) ? 48000 : 8000, (uint16_t)(1 + some(7)), bits[k], widths[k],
                       k == 5 ? HOUND_FLOAT : HOUND_INT};
    spec = made, frame = (uint32_t)spec.channels * widths[k];
    cut(&now, 0), cut(&stored, 0);
    change_count = waiting_count = 0, are_sizes_written = 0, is_emptying = has_begun = 0;
    accepted_count = promised = 0, found_count = -1, is_torn = may_be_torn = may_follow = has_riff = 0, start = 0;
    is_durable = some(3) > 0;
    if (one_in(2)) return; /* a new one */
    int is_short = k != 3 && (k < 2 || one_in(2));
    uint64_t data = (uint64_t)some(12) * frame, torn = one_in(3) ? some(frame) : 0;
    uint32_t counted = (uint32_t)data, kind = some(6);
    make_header(now.bytes, is_short);
    for (uint64_t i = 0; i < data + torn; i++) now.bytes[start + i] = (uint8_t)(128 + some(128));
    now.length = start + data + torn;
    if (kind < 2) counted = (uint32_t)(data / frame > 0 ? some((uint32_t)(data / frame)) * frame : 0); /* cut off */
    else if (kind == 2 && frame > 1 && data + torn > 0) counted = some((uint32_t)(data + torn)); /* a torn frame */
    else if (kind == 3) counted += (uint32_t)torn + 1 + some(100); /* too much */
    else if (torn == 0 && one_in(2)) now.length += data % 2; /* whole; without a pad byte, if it needs one */
    uint64_t riff = start - 8 + padded(counted);
    if (kind == 4 && torn == 0) { /* with chunks after the data */
        uint8_t *after = now.bytes + start + padded(data);
        memcpy(after, some(2) ? "LIST" : "id3 ", 4), put32(after + 4, 6), memset(after + 8, 'a', 6);
        now.length = start + padded(data) + 8 + some(7); /* it may itself be cut off */
        riff += 14;
    }
    put32(now.bytes + 4, one_in(8) ? some(1000) : (uint32_t)riff);
    put32(now.bytes + start - 4, counted);
    uint64_t rest = now.length - start;
    is_too_much = counted > rest;
    if (is_too_much || counted % frame) found_count = counted;
    accepted_count = counted < rest ? counted : rest;
    memcpy(accepted, now.bytes + start, (size_t)accepted_count);
    promised = accepted_count - accepted_count % frame;
    copy_file(&stored, &now);
}

/* Begins a new recording, in the place of what is there, up to an effect that fails. What has no report is performed
   again. */
static int32_t begin(void) {
    hound_effect effect;
    uint32_t step = 0;
    int32_t code;
    is_emptying |= now.length > 0;
    start = 0, accepted_count = promised = 0, found_count = -1, is_torn = may_be_torn = may_follow = has_riff = 0;
    has_begun = 0;
    must(hound_recorder_begin(&spec, &recorder) == 0, "a recorder begins");
    while ((code = hound_beginning(&spec, step, &effect)) == 1) {
        must(step < 5, "a file begins with as many effects as hound.h promises");
        must(effect.kind != HOUND_WRITE || effect.place + effect.length <= recorder.data_start, "a header is written");
        if (perform(&effect) == IS_KILLED || effect.report == HOUND_FAILED) return WAS_KILLED;
        if (effect.kind == HOUND_SYNC && effect.report == HOUND_DONE) is_emptying = 0;
        step += effect.report == HOUND_DONE;
    }
    must(code == 0 && step > 0, "a file begins");
    must(has_header(&now) && now.length == recorder.data_start, "a file that begins has a header, and no more");
    start = recorder.data_start;
    if (has("a header isn't synced")) return has_begun = 1, 0;
    code = record(8);
    if (code == 0) has_begun = 1, check_checkpoint();
    return code;
}

/* Continues a recording, if that is allowed. */
static int32_t resume(uint32_t allowed) {
    hound_repair_t found;
    if (is_durable && !has("a file isn't synced before it is continued")) store(1);
    int32_t code = look(&found);
    if (code != 0) return code;
    reading header = read_header(&now);
    damage file = damage_of(&now, 0);
    uint64_t counted = header.counted, kept = counted;
    int ends_whole = counted % frame == 0 && file.held <= counted && file.rest <= padded(counted);
    int is_cut_off = file.state == HOUND_CUT_OFF && !ends_whole;
    int is_followed = file.state == HOUND_HAS_CHUNKS_AFTER_DATA && !ends_whole;
    int32_t wanted = 0;
    if (file.rest < counted) wanted = HOUND_TRUNCATED;
    else if (is_cut_off && !(allowed & HOUND_MEND)) wanted = HOUND_NEEDS_MEND;
    else if (is_cut_off && file.held < counted) wanted = HOUND_UNFINISHED_FRAME;
    else if (is_cut_off) kept = file.held;
    else if (is_followed && !(allowed & HOUND_OVERWRITE)) wanted = HOUND_NEEDS_OVERWRITE;
    else if (is_followed && counted % frame != 0) wanted = HOUND_UNFINISHED_FRAME;
    if (has("a torn frame that is counted is cut off first") && is_cut_off && wanted == HOUND_UNFINISHED_FRAME) {
        cut_at(start + file.held);
        if (until_kill > 0 && until_kill < 3) return WAS_KILLED;
        found.data_length = (uint32_t)file.held, kept = file.held, wanted = 0;
    }
    if (has("what isn't counted is cut off") && is_cut_off && wanted == 0)
        found.state = HOUND_HAS_CHUNKS_AFTER_DATA, allowed |= HOUND_OVERWRITE;
    code = hound_recorder_resume(&found, allowed, &recorder);
    must(code == wanted, "a file is continued, or rejected for what it is");
    if (code < 0) return code;
    must(recorder.data_start == start && recorder.data_length == kept, "all whole frames are kept");
    memcpy(accepted, now.bytes + start, (size_t)kept), accepted_count = kept;
    may_follow = 0;
    resumed++;
    return 0;
}

static void record_once(void) {
    make_file();
    for (uint32_t programs = 1 + some(4); programs > 0; programs--) {
        fault_rate = some(3) ? 0 : 2 + some(10);
        until_kill = one_in(6) ? 0 : 1 + some(one_in(2) ? 12 : 60);
        has_lost = 0, late.kind = HOUND_NOTHING;
        if (!has_header(&now)) start = 0, accepted_count = promised = 0, is_torn = 0;
        int is_new = start == 0 || is_emptying || one_in(20);
        int32_t code = is_new ? begin() : resume(some(3) ? HOUND_MEND | (some(2) ? HOUND_OVERWRITE : 0) : some(4));
        int is_recorded = code == 0;
        if (is_recorded) code = record_blocks();
        kills += code == WAS_KILLED;
        check_file();
        if (is_durable && one_in(2)) {
            lose(), losses++;
            check_file();
        }
        if (has_header(&now) && !is_emptying && one_in(is_recorded ? 3 : 2)) repair_until_done(HOUND_REPAIR + some(3));
    }
}

int main(int argc, char **argv) {
    long count = argc > 1 ? atol(argv[1]) : 1000000, first = argc > 2 ? atol(argv[2]) : 0;
    fault = getenv("FAULT");
    for (number = first; number < first + count; number++) {
        state = ((uint64_t)number + 1) * 0x9E3779B97F4A7C15;
        for (int i = 0; i < 4; i++) some(2);
        record_once();
    }
    must(count < 1000 || (kills && torn_writes && failed_syncs && lost_reports && losses && repeated && resumed),
         "each kind of fault occurs");
    printf("disk: %ld recordings, continued %ld times, with %ld effects: %ld kills, %ld torn writes, %ld failures "
           "(%ld of syncs), %ld lost reports, %ld losses of power; %ld repairs, stopped %ld times and done again; "
           "none is wrong\n",
           count, resumed, effects, kills, torn_writes, failures, failed_syncs, lost_reports, losses, repairs,
           repeated);
    return 0;
}
