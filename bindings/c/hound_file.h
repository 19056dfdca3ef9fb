/* Reads, records and repairs files at a path, over hound.h. The library says what is read and written, and this
   performs it by the calls of POSIX or of Windows. Nothing of it is proved. All functions are static and inline, so
   nothing else is linked. Include it before the headers of the system, or define
   _XOPEN_SOURCE as 700 or _DEFAULT_SOURCE, because with -std=c99 the first of them hides what it calls.

     hound_file file;                                                   // record
     int32_t code = hound_file_create(&file, "take.wav", &spec, 0, 0);
     while (code == 0 && ..) {
         int64_t length = hound_encode_i16(&spec, samples, count, bytes, sizeof bytes);
         code = length < 0 ? (int32_t)length : hound_file_write(&file, bytes, count);
     }
     if (code < 0) puts(hound_file_text(&file, code));
     if (hound_file_close(&file) < 0 && code == 0) puts("the last checkpoint failed");

     code = hound_file_read_f32(&file, "take.wav", &info, &samples);    // read; then free(samples)

   A call returns 0 or an error of hound.h; hound_file_text has its sentence, and hound_file_reason one that names what
   a file is that isn't read. Where the system failed the error isn't 0 and `fault` is the errno. A hound_file is for
   one thread at a time. Windows syncs no folder: a power failure there may take the name of a new file. There a path is
   UTF-8, too, may be longer than 260, and takes 128 KB of stack.

   A descriptor of your own may be in `descriptor`. One that was opened to append (O_APPEND, `>>`) is rejected before
   anything is written, since the system would write at the end; on Windows only after the first write, which is there.
   A file that needs no repair may be read-only. */
#ifndef HOUND_FILE_H
#define HOUND_FILE_H
#ifndef _GNU_SOURCE
#define _GNU_SOURCE
#endif
#ifndef _FILE_OFFSET_BITS
#define _FILE_OFFSET_BITS 64
#endif
#include "hound.h"
#include <errno.h>
#include <fcntl.h>
#include <stdio.h>
#include <stdlib.h>
#include <string.h>
#include <sys/stat.h>
#if !defined(_WIN32) && !(defined(O_CLOEXEC) && defined(S_ISVTX)) /* as where glibc declares pread and realpath */
#error "compile with -D_XOPEN_SOURCE=700 or -D_DEFAULT_SOURCE, or include hound_file.h before the headers of the system"
#endif

/* The calls of the system. Those that return an int return 0, or -1 and errno. */
#ifdef _WIN32
#ifndef WIN32_LEAN_AND_MEAN
#define WIN32_LEAN_AND_MEAN
#endif
#include <io.h>
#include <windows.h>
#include <shellapi.h>
#ifdef _MSC_VER
#pragma comment(lib, "shell32")
#endif

enum { HOUND_FILE_LETTERS = 32768 }; /* as many as a path has at most */

/* The path for calls of Windows, in this buffer: with a prefix where it is long. NULL and errno where it is none. */
static inline const wchar_t *hound_file_wide(const char *path, wchar_t *room) {
    wchar_t given[HOUND_FILE_LETTERS], *full = room + 6;
    DWORD length = 0, most = HOUND_FILE_LETTERS - 6;
    if (MultiByteToWideChar(CP_UTF8, MB_ERR_INVALID_CHARS, path, -1, given, HOUND_FILE_LETTERS) > 0)
        length = GetFullPathNameW(given, most, full, NULL);
    if (length == 0 || length >= most) return errno = EINVAL, (const wchar_t *)NULL;
    if (length < MAX_PATH || full[2] == L'?' || full[2] == L'.') return full;
    if (full[0] != L'\\') return (const wchar_t *)memcpy(full - 4, L"\\\\?\\", 4 * sizeof *full);
    return (const wchar_t *)memcpy(full - 6, L"\\\\?\\UNC\\", 8 * sizeof *full); /* instead of a server's two */
}
/* The arguments of a program in UTF-8, as a path is; they stay as they are where there is no memory. */
static inline void hound_file_arguments(int *count, char ***arguments) {
    int i = 0, all, size;
    wchar_t **wide = CommandLineToArgvW(GetCommandLineW(), &all);
    char **words = wide ? (char **)calloc((size_t)all + 1, sizeof *words) : NULL;
    for (; words && i < all; i++) {
        size = WideCharToMultiByte(CP_UTF8, 0, wide[i], -1, NULL, 0, NULL, NULL);
        if (!(words[i] = (char *)malloc((size_t)size))) return;
        WideCharToMultiByte(CP_UTF8, 0, wide[i], -1, words[i], size, NULL, NULL);
    }
    if (words) *count = all, *arguments = words;
}
static inline int hound_file_separates(char letter) { return letter == '/' || letter == '\\' || letter == ':'; }
static inline int hound_file_remove(const char *path) {
    wchar_t room[HOUND_FILE_LETTERS];
    const wchar_t *wide = hound_file_wide(path, room);
    return wide ? _wremove(wide) : -1;
}
static inline int hound_file_open_at(const char *path, int flags) {
    wchar_t room[HOUND_FILE_LETTERS];
    const wchar_t *wide = hound_file_wide(path, room);
    return wide ? _wopen(wide, flags | _O_BINARY | _O_NOINHERIT, _S_IREAD | _S_IWRITE) : -1;
}
static inline int hound_file_seek(int descriptor, uint64_t place) {
    return _lseeki64(descriptor, (__int64)place, SEEK_SET) < 0 ? -1 : 0;
}
static inline int64_t hound_file_get(int descriptor, void *out, size_t count, uint64_t place) {
    return hound_file_seek(descriptor, place) < 0 ? -1 : _read(descriptor, out, (unsigned)count);
}
static inline int64_t hound_file_put(int descriptor, const void *bytes, size_t count, uint64_t place) {
    int64_t done = hound_file_seek(descriptor, place) < 0 ? -1 : _write(descriptor, bytes, (unsigned)count);
    if (done > 0 && _telli64(descriptor) != (__int64)place + done) return errno = EBADF, -1; /* It is at the end. */
    return done;
}
static inline int hound_file_close_at(int descriptor) { return _close(descriptor); }
static inline int hound_file_resize(int descriptor, uint64_t length) {
    errno = _chsize_s(descriptor, (__int64)length);
    return errno == 0 ? 0 : -1;
}
static inline int hound_file_sync(int descriptor) { return _commit(descriptor); }
static inline int hound_file_sync_folder(const char *path) { return (void)path, 0; }
static inline int hound_file_find(int descriptor, uint64_t *length, int *is_regular) {
    struct _stat64 about;
    if (_fstat64(descriptor, &about) < 0) return -1;
    *length = (uint64_t)about.st_size, *is_regular = (about.st_mode & _S_IFMT) == _S_IFREG;
    return 0;
}
/* Whether a new file can be made at a path: 0, or -1 and errno. It isn't known whether its folder can be written. */
static inline int hound_file_check_new(const char *path) {
    wchar_t room[HOUND_FILE_LETTERS];
    const wchar_t *wide = hound_file_wide(path, room), *name = wide ? wcsrchr(wide, L'\\') : NULL;
    if (!name) return -1;
    if (wcslen(name + 1) > 255) return errno = ENAMETOOLONG, -1;
    if (GetFileAttributesW(wide) != INVALID_FILE_ATTRIBUTES) return errno = EEXIST, -1;
    return GetLastError() == ERROR_FILE_NOT_FOUND ? 0 : (errno = ENOENT, -1);
}
/* Nobody renames a file that is open. */
static inline int hound_file_is_at(int descriptor, const char *path) { return (void)descriptor, (void)path, 1; }
/* Locks one byte that no file has, since others can't read what is locked. */
static inline int hound_file_lock_once(int descriptor, int is_shared) {
    DWORD how = LOCKFILE_FAIL_IMMEDIATELY | (is_shared ? 0 : LOCKFILE_EXCLUSIVE_LOCK);
    OVERLAPPED place;
    memset(&place, 0, sizeof place);
    place.OffsetHigh = 1u << 30;
    if (LockFileEx((HANDLE)_get_osfhandle(descriptor), how, 0, 1, 0, &place)) return 0;
    errno = GetLastError() == ERROR_LOCK_VIOLATION ? EWOULDBLOCK : ENOLCK;
    return -1;
}
static inline void hound_file_unlock(int descriptor) {
    OVERLAPPED place;
    memset(&place, 0, sizeof place);
    place.OffsetHigh = 1u << 30;
    UnlockFileEx((HANDLE)_get_osfhandle(descriptor), 0, 1, 0, &place);
}
static inline void hound_file_pause(int milliseconds) { Sleep((DWORD)milliseconds); }
static inline int64_t hound_file_milliseconds(void) { return (int64_t)GetTickCount64(); }
/* Standard input or output has bytes, and not lines. */
static inline void hound_file_set_binary(int descriptor) { _setmode(descriptor, _O_BINARY); }
static inline int64_t hound_file_get_next(int descriptor, void *out, size_t count) {
    return _read(descriptor, out, (unsigned)count);
}
static inline void hound_file_wait(int descriptor) { (void)descriptor; }
#else
#include <poll.h>
#include <sys/file.h>
#include <time.h>
#include <unistd.h>

typedef char hound_file_needs_FILE_OFFSET_BITS_64[sizeof(off_t) == 8 ? 1 : -1];

static inline int64_t hound_file_get(int descriptor, void *out, size_t count, uint64_t place) {
    return pread(descriptor, out, count, (off_t)place);
}
/* Whether the file may be changed at a place: else -1 and errno. One that was opened to append gets all at its end. */
static inline int hound_file_check(int descriptor) {
    int flags = fcntl(descriptor, F_GETFL);
    return flags >= 0 && flags & O_APPEND ? errno = EBADF, -1 : 0;
}
static inline int64_t hound_file_put(int descriptor, const void *bytes, size_t count, uint64_t place) {
    return hound_file_check(descriptor) < 0 ? -1 : pwrite(descriptor, bytes, count, (off_t)place);
}
static inline void hound_file_arguments(int *count, char ***arguments) { (void)count, (void)arguments; }
static inline int hound_file_separates(char letter) { return letter == '/'; }
static inline int hound_file_remove(const char *path) { return remove(path); }
/* Where a standard stream is closed, `open` returns its number, and what is meant for that would be in the file. So the
   file gets a higher one. A pipe isn't waited for. */
static inline int hound_file_open_at(const char *path, int flags) {
    int descriptor = open(path, flags | O_CLOEXEC | (flags & O_RDWR ? 0 : O_NONBLOCK), 0666), higher, why;
    if (descriptor < 0 || descriptor > STDERR_FILENO) return descriptor;
    higher = fcntl(descriptor, F_DUPFD_CLOEXEC, STDERR_FILENO + 1), why = errno;
    close(descriptor);
    if (higher < 0 && flags & O_EXCL) remove(path);
    errno = why;
    return higher;
}
static inline int hound_file_close_at(int descriptor) { return close(descriptor); }
static inline int hound_file_resize(int descriptor, uint64_t length) {
    return hound_file_check(descriptor) < 0 ? -1 : ftruncate(descriptor, (off_t)length);
}
#ifdef F_FULLFSYNC /* by which alone macOS stores what was written */
static inline int hound_file_sync(int descriptor) { return fcntl(descriptor, F_FULLFSYNC) < 0 ? -1 : 0; }
#else
static inline int hound_file_sync(int descriptor) { return fsync(descriptor); }
#endif
/* Syncs the folder that has the name of the file, also where the path is a link. */
static inline int hound_file_sync_folder(const char *path) {
    char *name = realpath(path, NULL);
    int folder, result = -1, why;
    if (!name) return -1;
    *(strrchr(name, '/') + 1) = 0;
    folder = open(name, O_RDONLY | O_CLOEXEC);
    if (folder >= 0) result = hound_file_sync(folder);
    why = errno;
    if (folder >= 0) close(folder);
    free(name);
    errno = why;
    return result;
}
static inline int hound_file_find(int descriptor, uint64_t *length, int *is_regular) {
    struct stat about;
    if (fstat(descriptor, &about) < 0) return -1;
    *length = (uint64_t)about.st_size, *is_regular = S_ISREG(about.st_mode);
    return 0;
}
/* Whether a new file can be made at a path: 0, or -1 and errno, where one is there, also a link to none (EEXIST), its
   name is too long, or its folder can't be written. */
static inline int hound_file_check_new(const char *path) {
    struct stat about;
    char *folder, *end;
    int result, why;
    if (lstat(path, &about) == 0) return errno = EEXIST, -1;
    if (errno != ENOENT || !(folder = (char *)malloc(strlen(path) + 1))) return -1;
    end = strrchr(strcpy(folder, path), '/');
    if (end) end[end == folder] = 0; /* The folder of /take.wav is the slash. */
    result = access(end ? folder : ".", W_OK | X_OK), why = errno;
    free(folder);
    errno = why;
    return result;
}
/* Whether a file that is open is the one at a path, and none was renamed to it: 1 or 0, or -1 and errno. */
static inline int hound_file_is_at(int descriptor, const char *path) {
    struct stat held, there;
    if (fstat(descriptor, &held) < 0 || stat(path, &there) < 0) return errno == ENOENT ? 0 : -1;
    return held.st_dev == there.st_dev && held.st_ino == there.st_ino;
}
static inline int hound_file_lock_once(int descriptor, int is_shared) {
    return flock(descriptor, (is_shared ? LOCK_SH : LOCK_EX) | LOCK_NB);
}
static inline void hound_file_unlock(int descriptor) { flock(descriptor, LOCK_UN); }
static inline void hound_file_pause(int milliseconds) { poll(NULL, 0, milliseconds); }
/* On a clock that nobody sets. */
static inline int64_t hound_file_milliseconds(void) {
    struct timespec time;
    clock_gettime(CLOCK_MONOTONIC, &time);
    return (int64_t)time.tv_sec * 1000 + time.tv_nsec / 1000000;
}
static inline void hound_file_set_binary(int descriptor) { (void)descriptor; }
static inline int64_t hound_file_get_next(int descriptor, void *out, size_t count) {
    return read(descriptor, out, count);
}
static inline void hound_file_wait(int descriptor) {
    struct pollfd input;
    input.fd = descriptor, input.events = POLLIN;
    poll(&input, 1, -1);
}
#endif

/* Locks a file for this program alone: 0, or -1 and errno. A program that follows a recording locks it for a moment, to
   see whether it is still recorded. So this is tried ten times, 2 ms apart. */
static inline int hound_file_lock(int descriptor) {
    int attempts_left = 10, why;
    while (hound_file_lock_once(descriptor, 0) < 0) {
        why = errno;
        if (why != EWOULDBLOCK || --attempts_left == 0) return errno = why, -1;
        hound_file_pause(2);
    }
    return 0;
}
/* Whether another program has locked a file. Where the system has no locks for it, none has. */
static inline int hound_file_is_locked(int descriptor) {
    if (hound_file_lock_once(descriptor, 1) < 0) return errno == EWOULDBLOCK;
    hound_file_unlock(descriptor);
    return 0;
}

/* A file, and its recorder. */
typedef struct {
    int descriptor; /* -1 where it isn't open */
    int is_durable; /* a sync stores the file; else it does nothing, since what was written is with the system */
    int fault;      /* the errno of what first failed in the last call; 0 where nothing of the system did */
    int has_rest;   /* a part of a block that failed couldn't be cut off: a repair would take it for samples */
    uint32_t counted; /* how many bytes of samples the header counts */
    int32_t kind;     /* what hound_kind returned for a file that wasn't appended to or repaired */
    const uint8_t *header; /* with which each file of the recording begins: the caller's, or NULL (hound_file_header) */
    uint32_t header_length;
    hound_recorder recorder;
} hound_file;

/* A sentence for an error of the last call, without its full stop. */
static inline const char *hound_file_text(const hound_file *file, int32_t code) {
    switch (file->fault) {
    case 0:
        if (code == HOUND_OTHER_FORMAT) return "the file has samples of another rate, format or number of channels";
        return hound_error_text(code);
    case EWOULDBLOCK: return "another program records to this file or repairs it";
    case ESPIPE: return "this is no regular file";
    case EBADF: return "the file isn't open to read and write at a place: open it with O_RDWR, without O_APPEND (>>)";
    case EPROTO: return "the library requests what this hound_file.h can't do: compile with that of the library";
    default: return strerror(file->fault);
    }
}

/* How many bytes of the front of a file are looked at for its kind, and how many a sentence on it has at most. */
enum { HOUND_FILE_FRONT = 4096, HOUND_FILE_SENTENCE = 192 };

/* A sentence on a file of this kind, which isn't read, without its full stop, in this space: what it is, and by what
   program it becomes one that is read, with as many bits as it may have. FFmpeg 5.1 takes the bytes of RIFX in the
   other order, and makes noise of them. NULL where hound_kind_text knows no name. */
static inline const char *hound_file_kind_reason(int32_t kind, char *room) {
    const char *name = hound_kind_text(kind), *command = "ffmpeg -i FILE -c:a pcm_s32le NEW.wav";
    if (!name) return NULL;
    if (kind < HOUND_KIND_UNKNOWN) command = "ffmpeg -i FILE -c:a pcm_s16le NEW.wav";
    if (kind == HOUND_KIND_FLOAT64) command = "ffmpeg -i FILE -c:a pcm_f32le NEW.wav";
    if (kind == HOUND_KIND_RIFX) command = "sox FILE -L NEW.wav";
    snprintf(room, HOUND_FILE_SENTENCE, "the file holds %s, and isn't read: convert it by %s", name, command);
    return room;
}

/* The sentence of hound_file_text after hound_file_append or hound_file_repair, or what the file is that isn't read, in
   this buffer of HOUND_FILE_SENTENCE bytes. */
static inline const char *hound_file_reason(const hound_file *file, int32_t code, char *room) {
    const char *reason = file->fault == 0 ? hound_file_kind_reason(file->kind, room) : NULL;
    return reason ? reason : hound_file_text(file, code);
}

/* As many bytes as one call of a system takes. */
static inline size_t hound_file_piece(size_t count) { return count < (1u << 30) ? count : 1u << 30; }

/* Reads so many bytes at a place, fewer only where the file ends: how many, or -1. */
static inline int64_t hound_file_read_at(int descriptor, uint8_t *out, size_t count, uint64_t place) {
    size_t done = 0;
    for (;;) {
        int64_t more =
            done < count ? hound_file_get(descriptor, out + done, hound_file_piece(count - done), place + done) : 0;
        if (more > 0) done += (size_t)more;
        else if (more == 0) return (int64_t)done;
        else if (errno != EINTR) return -1;
    }
}

/* Writes all of these bytes at a place: 0, or -1. */
static inline int hound_file_write_at(int descriptor, const uint8_t *bytes, size_t count, uint64_t place) {
    size_t done = 0;
    while (done < count) {
        int64_t more = hound_file_put(descriptor, bytes + done, hound_file_piece(count - done), place + done);
        if (more > 0) done += (size_t)more;
        else if (more == 0) return errno = EIO, -1;
        else if (errno != EINTR) return -1;
    }
    return 0;
}

/* Cuts a file off at a place, if it is longer: 0, or -1. */
static inline int hound_file_shorten(int descriptor, uint64_t place) {
    uint64_t length;
    int is_regular;
    if (hound_file_find(descriptor, &length, &is_regular) < 0) return -1;
    return length <= place ? 0 : hound_file_resize(descriptor, place);
}

/* Performs an effect, with the caller's block, and reports it: whether that was done. */
static inline int hound_file_perform(hound_file *file, hound_effect *effect, const uint8_t *block) {
    int64_t count = effect->length;
    int is_done = 0;
    switch (effect->kind) {
    case HOUND_READ:
        count = hound_file_read_at(file->descriptor, effect->bytes, effect->length, effect->place);
        is_done = count >= 0;
        break;
    case HOUND_WRITE:
        is_done = hound_file_write_at(file->descriptor, effect->bytes, effect->length, effect->place) == 0;
        break;
    case HOUND_WRITE_BLOCK:
        is_done = hound_file_write_at(file->descriptor, block, effect->length, effect->place) == 0;
        break;
    case HOUND_SYNC: is_done = !file->is_durable || hound_file_sync(file->descriptor) == 0; break;
    case HOUND_SHORTEN: is_done = hound_file_shorten(file->descriptor, effect->place) == 0; break;
    default: errno = EPROTO;
    }
    if (is_done) effect->length = (uint32_t)count;
    else if (file->fault == 0) file->fault = errno;
    effect->report = is_done ? HOUND_DONE : HOUND_FAILED;
    return is_done;
}

/* Performs all that the recorder requests. */
static inline int32_t hound_file_finish(hound_file *file, const uint8_t *block) {
    int32_t code;
    file->fault = 0;
    while ((code = hound_recorder_next(&file->recorder)) == 1) {
        int is_cut = file->recorder.effect.kind == HOUND_SHORTEN,
            is_done = hound_file_perform(file, &file->recorder.effect, block);
        if (is_cut) file->has_rest = !is_done;
    }
    return code;
}

/* Finds what kind of file it is, by its front. */
static inline void hound_file_look(hound_file *file) {
    uint8_t front[HOUND_FILE_FRONT];
    int64_t count = hound_file_read_at(file->descriptor, front, sizeof front, 0);
    if (count >= 0) file->kind = hound_kind(front, (size_t)count);
}

/* Performs what a repairer of this mode requests: all of it, or the reads alone, and then 1 says that more is left. */
static inline int32_t hound_file_examine(hound_file *file, uint64_t length, uint32_t mode, int is_read_only,
                                         hound_repair_t *found) {
    hound_repairer repairer;
    int32_t code;
    hound_repairer_begin(length, mode, &repairer);
    while ((code = hound_repairer_next(&repairer, found)) == 1 && !(is_read_only && repairer.effect.kind != HOUND_READ))
        hound_file_perform(file, &repairer.effect, NULL);
    if (code < 0) hound_file_look(file);
    return code;
}

/* Closes a file after a call that failed, and removes it where that had made it. */
static inline int32_t hound_file_give_up(hound_file *file, const char *path, int is_made, int32_t code) {
    if (is_made && hound_file_remove(path) == 0) is_made = 0;
    if (file->descriptor >= 0) hound_file_close_at(file->descriptor);
    if (is_made) hound_file_remove(path); /* Windows removes no open file. */
    file->descriptor = -1;
    return code;
}

/* Opens a file for this program alone, by the flags of `open`. Where another file was renamed to the path before the
   lock, that one is opened. Some systems number a file anew each time, so that none seems to be at its path: there is a
   last attempt. */
static inline int32_t hound_file_open(hound_file *file, const char *path, int flags, int is_durable, uint64_t *length) {
    int is_regular = 1, is_there = 0, attempts, is_made;
    file->descriptor = -1, file->is_durable = is_durable, file->has_rest = 0, file->fault = 0;
    file->kind = HOUND_KIND_UNKNOWN;
    for (attempts = 0; attempts < 10 && is_there == 0 && file->fault == 0; attempts++) {
        if (file->descriptor >= 0) hound_file_close_at(file->descriptor);
        file->descriptor = hound_file_open_at(path, flags);
        if (file->descriptor < 0) file->fault = errno;
        else if (hound_file_lock(file->descriptor) < 0 && errno == EWOULDBLOCK) file->fault = EWOULDBLOCK;
        else if ((is_there = hound_file_is_at(file->descriptor, path)) < 0) file->fault = errno;
    }
    is_made = file->descriptor >= 0 && flags & O_EXCL && file->fault != EWOULDBLOCK;
    if (file->fault == 0 && hound_file_find(file->descriptor, length, &is_regular) < 0) file->fault = errno;
    else if (!is_regular) file->fault = ESPIPE;
    return file->fault ? hound_file_give_up(file, path, is_made, HOUND_NOT_PERFORMED) : 0;
}

/* As is_emptied: the file may exist with less than the header of a new one, as a recorder leaves it that is killed
   before its header is written. */
enum { HOUND_FILE_IF_EMPTY = 2 };

/* Performs an effect on a file at a path, and reports it: whether that was done. */
static inline int hound_file_perform_at(hound_file *file, const char *path, hound_effect *effect,
                                        const uint8_t *block) {
    if (effect->kind != HOUND_SYNC_FOLDER) return hound_file_perform(file, effect, block);
    if (file->is_durable && hound_file_sync_folder(path) < 0) file->fault = errno;
    effect->report = file->fault ? HOUND_FAILED : HOUND_DONE;
    return !file->fault;
}

/* How many bytes a chunk has at most in addition to its content. */
enum { HOUND_FILE_CHUNK_BYTES = 9 };

/* Lays out a chunk: its name of four characters, its length, the content, and a byte of 0 where that is odd. Returns
   how many bytes it has, at most HOUND_FILE_CHUNK_BYTES more than the content; HOUND_NO_ROOM; or HOUND_TOO_LONG. */
static inline int64_t hound_file_chunk(const char *name, const uint8_t *content, size_t length, uint8_t *out,
                                       size_t capacity) {
    uint32_t i;
    if (length >= UINT32_MAX - 8) return HOUND_TOO_LONG;
    if (capacity < 8 || capacity - 8 < length + length % 2) return HOUND_NO_ROOM;
    memcpy(out, name, 4);
    for (i = 0; i < 4; i++) out[4 + i] = (uint8_t)(length >> 8 * i);
    memcpy(out + 8, content, length);
    if (length % 2) out[8 + length] = 0;
    return (int64_t)(8 + length + length % 2);
}

/* The header of a file of no samples with these chunks, which are laid out one after the other, before its data: for
   hound_file_create_with. It has as many bytes as the chunks and at most HOUND_HEADER_BYTES + HOUND_FILLER_BYTES more,
   and all four bytes of the data length are in one sector of a disk, which a power failure stores whole or not. Returns
   how many they are; HOUND_NOT_WRITABLE; HOUND_NO_ROOM; HOUND_TOO_LONG; or HOUND_NO_DATA_CHUNK where these bytes aren't
   whole chunks, or one of them is "data", or a "fmt " of another spec. */
static inline int64_t hound_file_header(const hound_spec *spec, const uint8_t *chunks, size_t length, uint8_t *out,
                                        size_t capacity) {
    uint8_t head[HOUND_HEADER_BYTES], sizes[8];
    hound_info_t info, plain;
    int64_t front = hound_header(spec, 0, head, sizeof head), filler, end;
    if (front < 0) return front;
    if (length >= UINT32_MAX) return HOUND_TOO_LONG;
    if (capacity < (size_t)front + length + HOUND_FILLER_BYTES) return HOUND_NO_ROOM;
    memcpy(out, head, (size_t)front - 8);
    memcpy(out + front - 8, chunks, length);
    filler = hound_filler((uint64_t)front + length, out + front - 8 + length, HOUND_FILLER_BYTES);
    if (filler < 0) return filler;
    end = front + (int64_t)length + filler;
    memcpy(out + end - 8, head + front - 8, 8);
    if (hound_sizes(spec, (uint64_t)end, 0, sizes, sizeof sizes) < 0) return HOUND_TOO_LONG;
    memcpy(out + 4, sizes, 4);
    if (hound_info(head, (size_t)front, &plain) < 0 || hound_info(out, (size_t)end, &info) < 0
        || info.data_start != (uint64_t)end || memcmp(&info.spec, &plain.spec, sizeof info.spec))
        return HOUND_NO_DATA_CHUNK;
    return end;
}

/* What hound_beginning returns for a number, which becomes that of the effect after this one. Writes that follow one
   another are one block, in this buffer of HOUND_HEADER_BYTES or the header of the file's own: so a process can't be
   killed between the two parts of a header. */
static inline int32_t hound_file_beginning(const hound_file *file, const hound_spec *spec, uint32_t *number,
                                           hound_effect *effect, uint8_t *room, const uint8_t **block) {
    hound_effect next;
    int32_t code = hound_beginning(spec, (*number)++, effect);
    if (code != 1 || effect->kind != HOUND_WRITE) return code;
    effect->kind = HOUND_WRITE_BLOCK;
    memcpy(room, effect->bytes, effect->length);
    while (hound_beginning(spec, *number, &next) == 1 && next.kind == HOUND_WRITE
           && next.place == effect->place + effect->length && effect->length + next.length <= HOUND_HEADER_BYTES) {
        memcpy(room + effect->length, next.bytes, next.length);
        effect->length += next.length, ++*number;
    }
    *block = file->header ? file->header : room;
    if (file->header) effect->length = file->header_length;
    return 1;
}

/* Begins the recorder of a new file, whose first checkpoint is under way. */
static inline int32_t hound_file_begin_recorder(hound_file *file, const hound_spec *spec) {
    hound_repair_t found;
    hound_info_t info;
    int32_t code;
    if (!file->header) return hound_recorder_begin(spec, &file->recorder);
    code = hound_info(file->header, file->header_length, &info);
    if (code < 0) return code;
    memset(&found, 0, sizeof found);
    found.spec = info.spec, found.data_start = found.length = file->header_length;
    code = hound_recorder_resume(&found, 0, &file->recorder);
    hound_recorder_checkpoint(&file->recorder);
    return code;
}

/* Performs the effects with which a file begins, and those of the checkpoint after them. */
static inline int32_t hound_file_begin(hound_file *file, const char *path, const hound_spec *spec) {
    uint8_t room[HOUND_HEADER_BYTES];
    const uint8_t *header = room;
    hound_effect effect;
    uint32_t number = 0;
    int32_t code;
    while ((code = hound_file_beginning(file, spec, &number, &effect, room, &header)) == 1)
        if (!hound_file_perform_at(file, path, &effect, header)) return HOUND_NOT_PERFORMED;
    return code < 0 ? code : hound_file_finish(file, NULL);
}

/* Whether the first bytes of a file are these. */
static inline int hound_file_begins_as(const hound_file *file, const uint8_t *bytes, uint64_t count) {
    uint8_t there[256];
    uint64_t done, piece;
    for (done = 0; done < count; done += piece) {
        piece = count - done < sizeof there ? count - done : sizeof there;
        if (hound_file_read_at(file->descriptor, there, (size_t)piece, done) != (int64_t)piece
            || memcmp(there, bytes + done, (size_t)piece))
            return 0;
    }
    return 1;
}

/* Whether a file of so many bytes is less than the header with which a new one of this spec begins, and equal to it as
   far as it goes: then it holds no sample. */
static inline int hound_file_is_unbegun(const hound_file *file, const hound_spec *spec, uint64_t held) {
    uint8_t room[HOUND_HEADER_BYTES];
    const uint8_t *header = room;
    hound_effect effect;
    uint32_t number = 0;
    do
        if (hound_file_beginning(file, spec, &number, &effect, room, &header) != 1) return 0;
    while (effect.kind != HOUND_WRITE_BLOCK);
    return effect.place == 0 && held < effect.length && hound_file_begins_as(file, header, held);
}

/* Begins a recording in a new file that begins with the header of hound_file_header, and so do its next files; NULL
   stands for that of the spec. The header is the caller's, who keeps it until the recording is closed. */
static inline int32_t hound_file_create_with(hound_file *file, const char *path, const hound_spec *spec,
                                             int is_durable, int is_emptied, const uint8_t *header,
                                             uint32_t header_length) {
    uint64_t held;
    int32_t code;
    int flags = O_RDWR | O_CREAT | (is_emptied ? 0 : O_EXCL);
    file->header = header, file->header_length = header_length;
    code = hound_file_begin_recorder(file, spec);
    file->descriptor = -1, file->fault = 0, file->counted = 0, file->kind = HOUND_KIND_UNKNOWN;
    if (code == 0) code = hound_file_open(file, path, flags, is_durable, &held);
    if (code < 0) return code;
    if (is_emptied == HOUND_FILE_IF_EMPTY && !hound_file_is_unbegun(file, spec, held))
        file->fault = EEXIST, code = HOUND_NOT_PERFORMED;
    else code = hound_file_begin(file, path, spec);
    return code < 0 ? hound_file_give_up(file, path, !is_emptied, code) : 0;
}

/* Begins a recording in a new file; one that exists is an error (EEXIST), or is emptied. */
static inline int32_t hound_file_create(hound_file *file, const char *path, const hound_spec *spec, int is_durable,
                                        int is_emptied) {
    return hound_file_create_with(file, path, spec, is_durable, is_emptied, NULL, 0);
}

/* Opens a file, and looks what it holds. */
static inline int32_t hound_file_find_recording(hound_file *file, const char *path, int is_durable, uint64_t *length,
                                                hound_repair_t *found) {
    int32_t code = hound_file_open(file, path, O_RDWR, is_durable, length);
    file->header = NULL, file->header_length = 0;
    if (code < 0) return code;
    if (is_durable && (hound_file_sync(file->descriptor) < 0 || hound_file_sync_folder(path) < 0))
        file->fault = errno, code = HOUND_NOT_PERFORMED;
    else code = hound_file_examine(file, *length, HOUND_FIND_DAMAGE, 0, found);
    return code < 0 ? hound_file_give_up(file, path, 0, code) : 0;
}

/* Begins the recorder of a file that was found like this. */
static inline int32_t hound_file_resume(hound_file *file, const hound_repair_t *found, uint32_t allowed) {
    file->counted = found->data_length;
    return hound_recorder_resume(found, allowed, &file->recorder);
}

/* Continues the recording in a file, as hound_recorder_resume does with what is allowed: nothing of it changes yet. */
static inline int32_t hound_file_append(hound_file *file, const char *path, uint32_t allowed, int is_durable,
                                        hound_repair_t *found) {
    uint64_t length = 0;
    int32_t code = hound_file_find_recording(file, path, is_durable, &length, found);
    if (code < 0) return code;
    code = hound_file_resume(file, found, allowed);
    return code < 0 ? hound_file_give_up(file, path, 0, code) : 0;
}

/* Repairs a file that is open, and begins its recorder. */
static inline int32_t hound_file_resume_repaired(hound_file *file, uint64_t length) {
    hound_repair_t found;
    int is_durable = file->is_durable, is_regular;
    int32_t code;
    file->is_durable = 1; /* A repair always syncs. */
    code = hound_file_examine(file, length, HOUND_REPAIR, 0, &found);
    file->is_durable = is_durable;
    if (code < 0) return code;
    if (hound_file_find(file->descriptor, &length, &is_regular) < 0)
        return file->fault = errno, HOUND_NOT_PERFORMED;
    code = hound_file_examine(file, length, HOUND_FIND_DAMAGE, 0, &found);
    return code < 0 ? code : hound_file_resume(file, &found, HOUND_MEND);
}

/* Whether samples of a spec continue those of another one, whose bytes per sample are known. */
static inline int hound_file_continues(const hound_spec *spec, const hound_spec *held) {
    return held->sample_rate == spec->sample_rate && held->channels == spec->channels
           && held->bits_per_sample == spec->bits_per_sample && held->sample_format == spec->sample_format
           && (spec->bytes_per_sample == 0 || held->bytes_per_sample == spec->bytes_per_sample);
}

/* Continues the recording at a path, whatever a killed process or a power failure has left of it. One that was cut off
   is repaired first, by the first checkpoint; or here, where the header counts more than the file holds, or a part of a
   frame, because a recorder never cuts off what is counted. A new one begins where no file is, or one that holds less
   than the header of a new one, and nothing else. `found` is what was there; in a new file its state is whole, and all
   else 0. A file with another spec is rejected with HOUND_OTHER_FORMAT and not changed; neither is a file with chunks
   after the data, or with an incomplete header that a new file wouldn't have. */
static inline int32_t hound_file_continue_with(hound_file *file, const char *path, const hound_spec *spec,
                                               int is_durable, hound_repair_t *found, const uint8_t *header,
                                               uint32_t header_length) {
    uint64_t length = 0;
    int32_t code = hound_file_find_recording(file, path, is_durable, &length, found);
    if (code == HOUND_ENDED || (code < 0 && file->fault == ENOENT)) {
        memset(found, 0, sizeof *found);
        code = hound_file_create_with(file, path, spec, is_durable, HOUND_FILE_IF_EMPTY, header, header_length);
        if (file->fault == EEXIST) file->fault = 0, code = HOUND_ENDED;
        return code;
    }
    file->header = header, file->header_length = header_length;
    if (code < 0) return code;
    code = hound_file_continues(spec, &found->spec) ? hound_file_resume(file, found, HOUND_MEND) : HOUND_OTHER_FORMAT;
    if (code == HOUND_TRUNCATED || code == HOUND_UNFINISHED_FRAME) code = hound_file_resume_repaired(file, length);
    return code < 0 ? hound_file_give_up(file, path, 0, code) : 0;
}

/* The same of files that begin with the header of their spec. */
static inline int32_t hound_file_continue(hound_file *file, const char *path, const hound_spec *spec, int is_durable,
                                          hound_repair_t *found) {
    return hound_file_continue_with(file, path, spec, is_durable, found, NULL, 0);
}

/* Makes the header count all samples. */
static inline int32_t hound_file_checkpoint(hound_file *file) {
    int32_t code;
    hound_recorder_checkpoint(&file->recorder);
    code = hound_file_finish(file, NULL);
    if (code == 0) file->counted = file->recorder.data_length;
    return code;
}

/* Writes a block of so many samples after the others, as hound_encode_.. gives them. Where that fails they are lost,
   and the recording can go on, unless the error is HOUND_TOO_LONG or HOUND_SYNC_FAILED. */
static inline int32_t hound_file_write(hound_file *file, const uint8_t *bytes, uint64_t samples) {
    int32_t code = hound_recorder_write(&file->recorder, samples);
    file->fault = 0;
    return code < 0 ? code : hound_file_finish(file, bytes);
}

/* Makes a checkpoint, and closes the file in any case. Where it isn't open the fault stays. */
static inline int32_t hound_file_close(hound_file *file) {
    int32_t code = file->descriptor < 0 ? HOUND_NOT_PERFORMED : hound_file_checkpoint(file);
    if (file->descriptor < 0) return code;
    if (hound_file_close_at(file->descriptor) < 0 && code == 0) file->fault = errno, code = HOUND_NOT_PERFORMED;
    file->descriptor = -1;
    return code;
}

/* The name of a further file of a recording, such as take-002.wav, the second one of take.wav, in a buffer of so many
   bytes: 0, or -1 where it is too small. Whether a file can be made there hound_file_check_new says, before the
   recording begins. */
static inline int hound_file_part(const char *path, unsigned number, char *out, size_t size) {
    const char *name = path, *ending, *at;
    int length;
    for (at = path; *at; at++)
        if (hound_file_separates(*at)) name = at + 1;
    ending = strrchr(name, '.');
    if (!ending || ending == name) ending = at;
    length = snprintf(out, size, "%.*s-%03u%s", (int)(ending - path), path, number, ending);
    return length < 0 || (size_t)length >= size ? -1 : 0;
}

/* How many frames still fit in a file that is to have so many at most. Before a block of more call hound_file_next. */
static inline uint64_t hound_file_frames_left(const hound_file *file, uint64_t most) {
    const hound_recorder *recorder = &file->recorder;
    uint64_t frame = (uint64_t)recorder->bytes_per_sample * recorder->channels;
    uint64_t held = frame > 0 ? recorder->data_length / frame : 0;
    uint64_t left = (uint64_t)hound_recorder_frames_left(recorder);
    if (held >= most) return 0;
    return left < most - held ? left : most - held;
}

/* Continues a recording in a next file, of the same spec. That one is made, begun and locked before this one gets its
   last checkpoint and is closed. Where this fails, as where a file of that name is there (EEXIST), it leaves no new
   one, and the file is as after any call that failed: all that was written is in it, and it can be written to or
   closed. Where only the system's close fails, the new file is the one that is recorded to. */
static inline int32_t hound_file_next(hound_file *file, const char *path, const hound_spec *spec) {
    hound_file next;
    int32_t code = hound_file_create_with(&next, path, spec, file->is_durable, 0, file->header, file->header_length),
            closed;
    if (code < 0) return file->fault = next.fault, code;
    code = hound_file_checkpoint(file);
    if (code < 0) return hound_file_give_up(&next, path, 1, code);
    closed = hound_file_close_at(file->descriptor);
    next.fault = closed < 0 ? errno : 0;
    *file = next;
    return closed < 0 ? HOUND_NOT_PERFORMED : 0;
}

/* Repairs the file at a path by these flags of `open`: with O_RDONLY 1 means that it would be written. */
static inline int32_t hound_file_repair_by(hound_file *file, const char *path, int flags, uint32_t mode,
                                           hound_repair_t *found) {
    uint64_t length = 0;
    int32_t code = hound_file_open(file, path, flags, 0, &length);
    file->is_durable = 1;
    if (code == 0) code = hound_file_examine(file, length, mode, flags == O_RDONLY, found);
    return hound_file_give_up(file, path, 0, code);
}

/* Repairs the file at a path in this mode, and says what it was; `file` has only the fault then. One of which nothing
   is to be written may be read-only. */
static inline int32_t hound_file_repair(hound_file *file, const char *path, uint32_t mode, hound_repair_t *found) {
    int32_t code = hound_file_repair_by(file, path, O_RDONLY, mode, found);
    return code == 1 ? hound_file_repair_by(file, path, O_RDWR, mode, found) : code;
}

/* Decodes all samples of an open file as floats, block by block: 0 or an error. */
static inline int32_t hound_file_decode_f32(hound_file *file, const hound_info_t *info, float *samples) {
    uint8_t bytes[16384];
    const hound_spec *spec = &info->spec;
    uint64_t done = 0;
    while (done < info->samples) {
        uint64_t left = info->samples - done, most = sizeof bytes / spec->bytes_per_sample;
        size_t count = (size_t)(left < most ? left : most);
        int64_t length = hound_file_read_at(file->descriptor, bytes, count * spec->bytes_per_sample,
                                            info->data_start + done * spec->bytes_per_sample), decoded;
        if (length < 0) return file->fault = errno, HOUND_NOT_PERFORMED;
        decoded = spec->sample_format == HOUND_FLOAT
                      ? hound_decode_f32(spec, bytes, (size_t)length, samples + done, count)
                      : hound_to_f32(spec, bytes, (size_t)length, samples + done, count);
        if (decoded < 0) return (int32_t)decoded;
        if ((uint64_t)decoded < count) return HOUND_TRUNCATED;
        done += count;
    }
    return 0;
}

/* Finds the samples of an open file, and reads them into new memory. */
static inline int32_t hound_file_load_f32(hound_file *file, hound_info_t *info, float **samples) {
    hound_walk walk = HOUND_WALK_BEGIN;
    uint64_t length;
    size_t count;
    int is_regular;
    int32_t code;
    while ((code = hound_walk_next(&walk, info)) == 1) hound_file_perform(file, &walk.effect, NULL);
    if (code < 0) return code;
    if (hound_file_find(file->descriptor, &length, &is_regular) < 0) return file->fault = errno, HOUND_NOT_PERFORMED;
    if (info->data_start + (uint64_t)info->samples * info->spec.bytes_per_sample > length) return HOUND_TRUNCATED;
    count = info->samples;
    if (count < SIZE_MAX / sizeof **samples) *samples = (float *)malloc((count + 1) * sizeof **samples);
    if (!*samples) return file->fault = ENOMEM, HOUND_NOT_PERFORMED;
    return hound_file_decode_f32(file, info, *samples);
}

/* Reads all samples of the file at a path as floats, with the channels in turn; those of a file of integers have the
   full scale 1. `info` says their rate, their channels and how many there are. `samples` gets memory that the caller
   frees, also where there is no sample, or NULL after an error. It locks nothing, and follows no recording: see
   hound_follow.h. A file that is in memory hound_read_i16 and its like read, without a copy of the file. */
static inline int32_t hound_file_read_f32(hound_file *file, const char *path, hound_info_t *info, float **samples) {
    int32_t code = HOUND_NOT_PERFORMED;
    memset(file, 0, sizeof *file);
    *samples = NULL, file->kind = HOUND_KIND_UNKNOWN;
    file->descriptor = hound_file_open_at(path, O_RDONLY);
    if (file->descriptor < 0) return file->fault = errno, code;
    code = hound_file_load_f32(file, info, samples);
    if (code < 0) {
        hound_file_look(file), free(*samples);
        *samples = NULL;
    }
    return hound_file_give_up(file, path, 0, code);
}

/* Reads so many bytes of standard input, a pipe or a terminal. Where these are fewer `fault` is 0 at the end, and else
   the errno. */
static inline size_t hound_file_take(int descriptor, uint8_t *out, size_t count, int *fault) {
    size_t done = 0;
    *fault = 0;
    while (done < count) {
        int64_t more = hound_file_get_next(descriptor, out + done, hound_file_piece(count - done));
        if (more == 0) break;
        if (more > 0) done += (size_t)more;
        else if (errno == EAGAIN || errno == EWOULDBLOCK)
            hound_file_wait(descriptor); /* another program made it non-blocking */
        else if (errno != EINTR) return *fault = errno, done;
    }
    return done;
}
#endif
