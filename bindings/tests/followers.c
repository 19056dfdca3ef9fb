/* Recorders that are killed at random moments, with followers beside them.
     cc -O2 -Ibindings/c bindings/tests/followers.c bindings/lib/x86_64-linux/libhound_c.a -o followers
     ./followers FOLDER RUNS [SEED]
   In each run a process records blocks of random bytes by hound_file.h, and says in shared memory what was accepted. It
   stores the sizes of the file byte by byte, with pauses, and in half of the runs a twentieth of its writes fail after
   a part. After the kill another process continues half of the recordings, repaired first, and is killed, too.
   Meanwhile hound_follow.h follows the file. Each byte that it gives has to be that of the accepted samples, and
   accepted when it is given; and at the end it has to have given each that the header counts. Three wrong followers
   look at the same file, and have to be found wrong, if there are at least 1,000 runs:
     size     takes all that the file holds for samples
     up       reads the length from its first byte to the last
     early    ends once the file is unlocked, without another look */
#define _GNU_SOURCE
#include <errno.h>
#include <signal.h>
#include <stdint.h>
#include <stdio.h>
#include <stdlib.h>
#include <string.h>
#include <sys/mman.h>
#include <sys/prctl.h>
#include <sys/stat.h>
#include <sys/wait.h>
#include <unistd.h>

enum { MOST = 1 << 21 }; /* bytes of samples of a recording */

/* What recorders say: how many bytes of samples were accepted, how many a checkpoint has counted that returned, and
   what they are. */
static struct {
    volatile uint32_t accepted, published, faults, checkpoints;
    uint8_t samples[MOST];
} *shared;
static uint64_t state;
static int has_faults, is_recorder;

static uint32_t chance(uint32_t below) {
    state = state * 6364136223846793005u + 1442695040888963407u;
    return (uint32_t)(state >> 33) % below;
}
static void spin(uint32_t most) { for (volatile uint32_t i = chance(most); i > 0; i--) continue; }

/* Writes a part, after which the caller writes the rest: of a size a byte. Or fails after a part. */
static ssize_t write_part(int descriptor, const void *bytes, size_t count, off_t place) {
    size_t part = count <= 4 ? 1 : 1 + chance((uint32_t)count);
    ssize_t done;
    if (!is_recorder || count == 0) return pwrite(descriptor, bytes, count, place);
    if (has_faults && chance(20) == 0) {
        shared->faults++;
        if (chance(2) && pwrite(descriptor, bytes, part, place) < 0) return -1;
        return errno = EIO, -1;
    }
    done = pwrite(descriptor, bytes, part, place);
    spin(count <= 4 ? 3000 : 300);
    return done;
}
#define pwrite write_part
#include "hound_follow.h"
#undef pwrite

/* Ends a recorder that finds its file wrong. */
static void found_wrong(const char *what) { fprintf(stderr, "followers: %s\n", what), _exit(9); }

/* What was accepted of a recording that is continued: what the file holds, which begins with what was known. */
static void take_up(const hound_file *file) {
    static uint8_t held[MOST];
    uint32_t length = file->recorder.data_length, known = shared->accepted < length ? shared->accepted : length;
    if (hound_file_read_at(file->descriptor, held, length, file->recorder.data_start) != length
        || memcmp(held, shared->samples, known))
        found_wrong("a recording has other samples when it is continued");
    memcpy(shared->samples, held, length);
    shared->accepted = length;
}

static void record(const char *path, const hound_spec *spec, int is_continued, uint64_t seed) {
    hound_file file;
    hound_repair_t found;
    int32_t code;
    uint32_t frame = (uint32_t)spec->channels * spec->bytes_per_sample;
    is_recorder = 1, state = seed;
    prctl(PR_SET_PDEATHSIG, SIGKILL);
    code = is_continued ? hound_file_continue(&file, path, spec, 0, &found)
                        : hound_file_create(&file, path, spec, 0, 0);
    if (code < 0) _exit(0); /* by a fault */
    take_up(&file);
    for (;;) {
        uint32_t count = frame * (1 + chance(chance(4) ? 40 : 3000)), have = shared->accepted;
        if (have + count > MOST) break;
        for (uint32_t i = 0; i < count; i++) shared->samples[have + i] = (uint8_t)chance(256);
        code = hound_file_write(&file, shared->samples + have, count / spec->bytes_per_sample);
        if (code == 0) shared->accepted = have + count;
        else if (code == HOUND_SYNC_FAILED || code == HOUND_TOO_LONG) break;
        if (chance(3) == 0 && hound_file_checkpoint(&file) == 0)
            shared->published = shared->accepted, shared->checkpoints++;
    }
    hound_file_close(&file);
    _exit(0);
}

enum { RIGHT, SIZE, UP, EARLY, WAYS };
static const char *const names[WAYS] = {"hound_follow.h", "size", "up", "early"};

/* A follower, what it gave, and in how many runs it gave something else or too little. */
static struct way {
    hound_follow follow;
    uint32_t given;
    int is_wrong;
    unsigned wrong, missing;
    uint8_t out[MOST];
} ways[WAYS];

/* How many bytes of samples a wrong follower takes for counted. */
static uint32_t counted_by(int number, const hound_follow *follow) {
    const hound_follower *follower = &follow->follower;
    uint64_t size, place = follower->data_start - 4;
    uint8_t bytes[4] = {0};
    int is_regular, i;
    if (number == SIZE) {
        if (hound_file_find(follow->file.descriptor, &size, &is_regular) < 0 || size < place + 4) return 0;
        return (uint32_t)hound_whole_frames(&follower->spec, size - place - 4);
    }
    for (i = 0; i < 4; i++) {
        hound_file_read_at(follow->file.descriptor, bytes + i, 1, place + i);
        for (volatile int pause = 0; pause < 2000; pause++) continue; /* so that more is torn */
    }
    return (uint32_t)hound_whole_frames(&follower->spec, bytes[0] | (uint32_t)bytes[1] << 8 | (uint32_t)bytes[2] << 16
                                                             | (uint32_t)bytes[3] << 24);
}

/* A look of one of the ways, and how many bytes it gives. Room for more than was accepted is a fault of its own. */
static int64_t look(int number) {
    struct way *way = &ways[number];
    hound_follow *follow = &way->follow;
    int64_t came;
    if (number != SIZE && number != UP) {
        came = hound_follow_read(follow, way->out + way->given, MOST - way->given);
    } else {
        uint32_t counted;
        if (follow->follower.data_start == 0 && hound_follow_look(&follow->file, &follow->follower) != 0) return 0;
        counted = counted_by(number, follow);
        if (counted <= way->given) return 0;
        if (counted > MOST) return way->is_wrong = 1, 0;
        came = hound_file_read_at(follow->file.descriptor, way->out + way->given, counted - way->given,
                                  follow->follower.data_start + way->given);
        if (came < (int64_t)(counted - way->given)) way->is_wrong = 1;
        if (came > 0) came = hound_whole_frames(&follow->follower.spec, (uint64_t)came);
    }
    if (came < 0) return way->is_wrong = 1, came;
    way->given += (uint32_t)came;
    if (way->given > shared->accepted) way->is_wrong = 1;
    return came;
}

static int open_all(const char *path) {
    for (int i = 0; i < WAYS; i++) ways[i].given = 0, ways[i].is_wrong = 0;
    for (int i = 0; i < WAYS; i++)
        if (hound_follow_open(&ways[i].follow, path) < 0) {
            while (i-- > 0) hound_follow_close(&ways[i].follow);
            return 0;
        }
    return 1;
}
static void close_all(void) { for (int i = 0; i < WAYS; i++) hound_follow_close(&ways[i].follow); }

static struct { unsigned long long bytes, looks, checkpoints, faults; unsigned begun, continued, given, cut; } total;

static int64_t microseconds(void) {
    struct timespec time;
    clock_gettime(CLOCK_MONOTONIC, &time);
    return (int64_t)time.tv_sec * 1000000 + time.tv_nsec / 1000;
}

/* Follows the file while a process records it, which is killed after so many microseconds, mostly since the file is
   there; whether it was open. */
static int follow_one(const char *path, pid_t child, int is_open, uint32_t moment) {
    int64_t end = microseconds() + (is_open || moment < 1000 ? moment : 30000);
    int is_killed = 0, status;
    for (;;) {
        /* A recorder that fails removes its file: it is followed by its name until something was given. */
        if (is_open && ways[RIGHT].given == 0 && hound_file_is_at(ways[RIGHT].follow.file.descriptor, path) != 1)
            close_all(), is_open = 0;
        if (!is_open && (is_open = open_all(path)) && moment >= 1000) end = microseconds() + moment;
        for (int i = 0; is_open && i < WAYS; i++) {
            if (is_killed && i == EARLY) continue;
            while (look(i) > 0 && is_killed) continue;
            total.looks++;
        }
        if (is_killed) break;
        if (microseconds() < end) continue;
        kill(child, SIGKILL);
        waitpid(child, &status, 0);
        if (WIFEXITED(status) && WEXITSTATUS(status) == 9) exit(1);
        is_killed = 1;
        if (is_open && hound_follow_is_recorded(&ways[RIGHT].follow) != 0)
            fprintf(stderr, "followers: the file of a killed recorder is locked\n"), exit(1);
    }
    return is_open;
}

/* Compares what each way gave with what was accepted and is counted. */
static void compare(unsigned run) {
    hound_repair_t found;
    int is_found = hound_follow_find(&ways[RIGHT].follow, &found) == 0;
    uint64_t held = is_found ? found.counted * (uint64_t)(found.spec.channels * found.spec.bytes_per_sample) : 0;
    for (int i = 0; i < WAYS; i++) {
        struct way *way = &ways[i];
        int is_wrong = way->is_wrong || memcmp(way->out, shared->samples, way->given);
        /* A kill between two bytes of a length may leave one that counts fewer than before. */
        int is_missing = way->given < held || (held >= shared->published && way->given < shared->published);
        way->wrong += (unsigned)is_wrong, way->missing += !is_wrong && is_missing;
        if (i == RIGHT && (is_wrong || is_missing))
            printf("followers: run %u: %u bytes given, %u accepted, %u published, %lu counted\n", run, way->given,
                   shared->accepted, shared->published, (unsigned long)held);
    }
    total.cut += held < shared->published;
    total.given += ways[RIGHT].given > 0, total.bytes += ways[RIGHT].given;
}

int main(int argc, char **argv) {
    static const uint16_t forms[][3] = {{1, 8, 1}, {2, 16, 2}, {1, 24, 3}, {3, 8, 1}, {1, 16, 2}, {2, 32, 4}};
    char path[4096];
    if (argc < 3) return fprintf(stderr, "usage: followers FOLDER RUNS [SEED]\n"), 2;
    unsigned runs = (unsigned)atoi(argv[2]), seed = argc > 3 ? (unsigned)atoi(argv[3]) : 1;
    shared = mmap(NULL, sizeof *shared, PROT_READ | PROT_WRITE, MAP_SHARED | MAP_ANONYMOUS, -1, 0);
    if (shared == MAP_FAILED) return perror("followers"), 2;
    snprintf(path, sizeof path, "%s/followed-%u-%d.wav", argv[1], seed, (int)getpid());
    for (unsigned run = 0; run < runs; run++) {
        int is_open = 0, sessions;
        state = seed * 1000003u + run * 7919u + 12345;
        for (int i = 0; i < 10; i++) chance(2);
        const uint16_t *form = forms[chance(6)];
        hound_spec spec = {48000, form[0], form[1], form[2], HOUND_INT};
        sessions = 1 + (int)chance(2), has_faults = (int)chance(2);
        unlink(path);
        shared->accepted = shared->published = shared->faults = shared->checkpoints = 0;
        for (int session = 0; session < sessions && (is_open || session == 0); session++) {
            uint64_t own = state + (uint64_t)session;
            pid_t child = fork();
            if (child < 0) return perror("followers"), 2;
            if (child == 0) record(path, &spec, session > 0, own);
            is_open = follow_one(path, child, is_open, chance(4) ? chance(6000) : chance(1000));
            total.continued += session > 0;
        }
        total.begun += is_open, total.faults += shared->faults, total.checkpoints += shared->checkpoints;
        if (is_open) compare(run), close_all();
    }
    unlink(path);
    printf("followers: %u runs, %u with a file, %u continued, %u with samples; %llu checkpoints, %llu faults, "
           "%llu looks, %llu bytes; %u kills within a length\n",
           runs, total.begun, total.continued, total.given, total.checkpoints, total.faults, total.looks, total.bytes,
           total.cut);
    int is_right = ways[RIGHT].wrong == 0 && ways[RIGHT].missing == 0;
    for (int i = 0; i < WAYS; i++) {
        printf("followers: %s: %u wrong, %u incomplete\n", names[i], ways[i].wrong, ways[i].missing);
        if (i != RIGHT && runs >= 1000 && ways[i].wrong + ways[i].missing == 0)
            is_right = 0, printf("followers: this wrong one isn't found\n");
    }
    return !is_right;
}
