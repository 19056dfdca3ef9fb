/* Recordings that are read while another program makes them, over hound.h and hound_file.h: what follow.c does. The
   library says what is read, and this performs it by the calls of POSIX or of Windows. Nothing of it is proved. All
   functions are static and inline. What hound_file.h says of the headers of the system holds here, too.

     hound_follow follow;
     int64_t count = hound_follow_open(&follow, "take.wav");
     int is_over = 0;
     while (count >= 0) {
         count = hound_follow_read(&follow, bytes, sizeof bytes);
         if (count > 0) use(&follow.follower.spec, bytes, (size_t)count), is_over = 0;
         else if (is_over) break;
         else if (..a second has passed..) count = hound_follow_is_recorded(&follow), is_over = count == 0;
         else ..wait a little..
     }
     if (count < 0) puts(hound_follow_reason(&follow, (int32_t)count, room));
     hound_follow_close(&follow);

   What is given was accepted by the recorder and is counted by the header, so a crash of the recorder takes none of it
   back. Its last checkpoint may come just before it ends. So the end is known only in this order: nothing new is
   counted, then nobody has the file locked, and then a last look finds nothing new either. Programs that lock nothing,
   such as Node, seem to have ended at once: wait for more as long as such a program may take between two checkpoints.

   A file that was emptied, cut off below what was given, or replaced by another one at its path is an error: `fault` of
   `file` is HOUND_FOLLOW_REPLACED. It is known by the last bytes that were given, so it isn't noticed where another
   recording in the same file begins with as much of the same, such as silence. A hound_follow is for one thread at a
   time. On Windows nobody removes or renames a file that is followed. */
#ifndef HOUND_FOLLOW_H
#define HOUND_FOLLOW_H
#include "hound_file.h"

/* How many of the last bytes that were given are compared with the file, and the fault where they are others. */
enum { HOUND_FOLLOW_TAIL = 256, HOUND_FOLLOW_REPLACED = EBADMSG };

/* A recording that is followed. */
typedef struct {
    hound_file file;         /* its descriptor, and the fault of the last call */
    const char *path;        /* the caller's, who keeps it until the file is closed */
    uint32_t given;          /* how many bytes of samples were given */
    uint32_t kept;           /* how many of the last ones are in `tail` */
    hound_follower follower; /* its `spec` is that of the samples, once `data_start` isn't 0 */
    uint8_t tail[HOUND_FOLLOW_TAIL];
} hound_follow;

/* A sentence for what a call returned, without its full stop, in this buffer of HOUND_FILE_SENTENCE bytes. */
static inline const char *hound_follow_reason(const hound_follow *follow, int32_t code, char *room) {
    if (follow->file.fault == HOUND_FOLLOW_REPLACED) return "the file was replaced, emptied or cut off meanwhile";
    return hound_file_reason(&follow->file, code, room);
}

/* Begins anew with a file that is open. */
static inline void hound_follow_begin(hound_follow *follow, int descriptor) {
    const hound_follower begin = HOUND_FOLLOWER_BEGIN;
    follow->file.descriptor = descriptor, follow->file.kind = HOUND_KIND_UNKNOWN;
    follow->follower = begin, follow->given = follow->kept = 0;
}

/* Opens the file at a path, of which nothing need be there yet. Where there is no file `fault` is ENOENT. */
static inline int32_t hound_follow_open(hound_follow *follow, const char *path) {
    memset(&follow->file, 0, sizeof follow->file);
    follow->path = path;
    hound_follow_begin(follow, hound_file_open_at(path, O_RDONLY));
    if (follow->file.descriptor < 0) return follow->file.fault = errno, HOUND_NOT_PERFORMED;
    return 0;
}

static inline void hound_follow_close(hound_follow *follow) {
    if (follow->file.descriptor >= 0) hound_file_close_at(follow->file.descriptor);
    follow->file.descriptor = -1;
}

/* One look at what is counted: 0 where more is, HOUND_NOTHING_NEW, or an error. */
static inline int32_t hound_follow_look(hound_file *file, hound_follower *follower) {
    int32_t code;
    while ((code = hound_follower_next(follower)) == 1) hound_file_perform(file, &follower->effect, NULL);
    return code;
}

/* Whether the file is the recording that it was: its last bytes that were given are where they were. Where none were
   its header is the same. */
static inline int hound_follow_is_same(hound_follow *follow) {
    uint8_t now[HOUND_FOLLOW_TAIL];
    uint64_t place = follow->follower.data_start + follow->given - follow->kept;
    hound_follower again = HOUND_FOLLOWER_BEGIN;
    if (follow->given > 0)
        return hound_file_read_at(follow->file.descriptor, now, follow->kept, place) == (int64_t)follow->kept
               && !memcmp(now, follow->tail, follow->kept);
    return hound_follow_look(&follow->file, &again) == 0 && again.data_start == follow->follower.data_start
           && !memcmp(&again.spec, &follow->follower.spec, sizeof again.spec);
}

/* Another recording was found in the file: an error, unless nothing was given of the one before. */
static inline int32_t hound_follow_replaced(hound_follow *follow) {
    if (follow->given > 0) return follow->file.fault = HOUND_FOLLOW_REPLACED, HOUND_NOT_PERFORMED;
    hound_follow_begin(follow, follow->file.descriptor);
    return 0;
}

/* The look of a read to which nothing is left to be given. The look that finds the header counts nothing yet. */
static inline int32_t hound_follow_look_for_more(hound_follow *follow) {
    int32_t code;
    do code = hound_follow_look(&follow->file, &follow->follower);
    while (code == 0 && follow->follower.counted == follow->given);
    if (code == HOUND_TRUNCATED) return hound_follow_replaced(follow);
    if (code < 0 && follow->file.fault == 0) hound_file_look(&follow->file);
    return code < 0 ? code : 0;
}

/* Gives the next samples, as the file stores them: how many bytes of whole frames, as many as are counted and have
   room; 0 where nothing new is counted, or the header isn't whole yet; or an error, at which none are given. It never
   waits. */
static inline int64_t hound_follow_read(hound_follow *follow, uint8_t *out, size_t capacity) {
    hound_follower *follower = &follow->follower;
    int32_t code = 0;
    uint32_t count;
    int64_t came;
    follow->file.fault = 0;
    if (follower->counted == follow->given) code = hound_follow_look_for_more(follow);
    count = follower->counted - follow->given;
    if (code < 0 || count == 0) return code;
    if (count > capacity) count = (uint32_t)hound_whole_frames(&follower->spec, capacity);
    if (count == 0) return HOUND_NO_ROOM;
    came = hound_file_read_at(follow->file.descriptor, out, count, follower->data_start + follow->given);
    if (came < 0) return follow->file.fault = errno, HOUND_NOT_PERFORMED;
    if (came < (int64_t)count || !hound_follow_is_same(follow)) return hound_follow_replaced(follow);
    follow->given += count;
    follow->kept = count < sizeof follow->tail ? count : (uint32_t)sizeof follow->tail;
    memcpy(follow->tail, out + count - follow->kept, follow->kept);
    return (int64_t)count;
}

/* Whether a program that locks the file records, appends to or repairs it: 1 or 0, or an error where the file isn't the
   recording that it was. Where another file is at the path, and nothing was given of this one, that one is followed
   from now on, because a recorder that fails removes its file; else that is an error, too, once nobody records this
   one. For a moment the file is locked for readers. So ask only where nothing new is counted, at most once a second,
   and not in the first second while no header is there, because a recorder makes its file before it locks it. */
static inline int32_t hound_follow_is_recorded(hound_follow *follow) {
    int is_recorded, other = -1;
    if (hound_file_is_at(follow->file.descriptor, follow->path) == 0)
        other = hound_file_open_at(follow->path, O_RDONLY);
    if (other >= 0 && follow->given == 0) {
        hound_file_close_at(follow->file.descriptor);
        hound_follow_begin(follow, other);
        return 1;
    }
    if (other >= 0) hound_file_close_at(other);
    is_recorded = hound_file_is_locked(follow->file.descriptor), follow->file.fault = 0;
    if ((!is_recorded && other >= 0) || (follow->given > 0 && !hound_follow_is_same(follow)))
        return follow->file.fault = HOUND_FOLLOW_REPLACED, HOUND_NOT_PERFORMED;
    return is_recorded;
}

/* How a file was left that nobody records: HOUND_CUT_OFF where the recorder was killed. Then a repair adds `frames`
   less `counted` frames, which weren't given. Nothing is written. */
static inline int32_t hound_follow_find(hound_follow *follow, hound_repair_t *found) {
    uint64_t length;
    int is_regular;
    follow->file.fault = 0;
    if (hound_file_find(follow->file.descriptor, &length, &is_regular) < 0)
        return follow->file.fault = errno, HOUND_NOT_PERFORMED;
    return hound_file_examine(&follow->file, length, HOUND_FIND_DAMAGE, 0, found);
}
#endif
