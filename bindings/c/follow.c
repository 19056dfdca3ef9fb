/* Writes the samples of a recording to standard output while another program makes it, as the file stores them, and
   ends once that has ended. The file may be missing yet where --timeout SECONDS says how long nothing new may come:
   after that it is an error. With --parts it goes on in take-002.wav, take-003.wav and so on, as record.c --split makes
   them. That a recorder has ended is known by its lock. For one that locks nothing, such as a program in Node, --idle
   SECONDS says how long it waits for more. Between two looks it waits for --poll MILLISECONDS (50). The status is 0
   where all was written that the recorder had accepted. Where it was killed, and a repair brings more back, standard
   error says how much, and the status is 1.
     cc -Ibindings/c bindings/c/follow.c bindings/lib/x86_64-linux/libhound_c.a -o follow
     ./follow take.wav | ./meter */
#include "hound_follow.h"

enum { SECOND = 1000, MOST_SECONDS = 1000000 };

static hound_follow follow;
static int64_t idle, timeout, interval = 50; /* milliseconds, and so are these: */
static int64_t last_news;  /* when the last samples came, or the file was opened */
static int64_t last_asked; /* when the recorder's lock was asked for */

static int fail(const char *what, const char *why) { return fprintf(stderr, "follow: %s: %s\n", what, why), 1; }

/* Waits until the next look; or returns that nothing new came for too long. */
static int is_late(void) {
    if (timeout > 0 && hound_file_milliseconds() - last_news > timeout) return 1;
    hound_file_pause((int)interval);
    return 0;
}

/* Whether the lock may be asked for. A file without a header may be one that its recorder hasn't locked yet. */
static int may_ask(void) {
    int64_t now = hound_file_milliseconds(), least = idle;
    if (follow.follower.data_start == 0 && least < SECOND) least = SECOND;
    return now - last_news >= least && now - last_asked >= SECOND;
}

/* Whether the file at a path counts samples by now: then a read without room has to say so. */
static int counts_samples(const char *path) {
    static hound_follow other;
    int64_t code;
    if (hound_follow_open(&other, path) < 0) return 0;
    code = hound_follow_read(&other, NULL, 0);
    hound_follow_close(&other);
    return code == HOUND_NO_ROOM;
}

/* Writes all samples of the file, until its recording is over: the status. A recorder that locks nothing has ended it,
   too, once the next file counts samples; NULL where there is to be none. */
static int copy(const char *path, const char *next) {
    static uint8_t bytes[1 << 18]; /* a frame has fewer */
    char room[HOUND_FILE_SENTENCE];
    int is_over = 0;
    last_news = hound_file_milliseconds(), last_asked = -SECOND;
    for (;;) {
        int64_t count = hound_follow_read(&follow, bytes, sizeof bytes);
        if (count < 0) return fail(path, hound_follow_reason(&follow, (int32_t)count, room));
        if (count > 0) {
            if (fwrite(bytes, 1, (size_t)count, stdout) != (size_t)count || fflush(stdout))
                return fail("standard output", strerror(errno));
            last_news = hound_file_milliseconds(), is_over = 0;
        } else if (is_over) {
            return 0;
        } else if (may_ask()) {
            int32_t code = hound_follow_is_recorded(&follow);
            if (code < 0) return fail(path, hound_follow_reason(&follow, code, room));
            last_asked = hound_file_milliseconds(), is_over = code == 0;
        } else if (next && idle > 0 && counts_samples(next)) {
            is_over = 1;
        } else if (is_late()) {
            return fail(path, "nothing new came");
        }
    }
}

/* Says how the recorder has left the file: the status. */
static int report(const char *path) {
    char room[HOUND_FILE_SENTENCE];
    hound_repair_t found;
    int32_t code = hound_follow_find(&follow, &found);
    if (code == HOUND_ENDED) return fail(path, "it has no header, and nobody records it");
    if (code < 0) return fail(path, hound_follow_reason(&follow, code, room));
    if (found.state != HOUND_CUT_OFF || found.frames <= found.counted) return 0;
    snprintf(room, sizeof room, "the recorder was killed, and a repair adds %lu frames",
             (unsigned long)(found.frames - found.counted));
    return fail(path, room);
}

/* The milliseconds that follow an option, as a number of these units; another word is an error. */
static int64_t time_of(const char *option, const char *word, double unit) {
    char *end = NULL;
    double number = word && *word >= '0' && *word <= '9' ? strtod(word, &end) : -1;
    if (number >= 0 && number <= MOST_SECONDS && !*end) return (int64_t)(number * unit);
    exit(fail(option, "a number of seconds has to follow, or of milliseconds after --poll"));
}

int main(int argc, char **argv) {
    static const char usage[] = "follow FILE [--parts] [--idle SECONDS] [--timeout SECONDS] [--poll MILLISECONDS]";
    static char names[2][1 << 15];
    const char *path, *next = NULL;
    int is_in_parts = 0, status;
    unsigned number;
    hound_file_arguments(&argc, &argv);
    for (int i = 2; i < argc; i++) {
        if (!strcmp(argv[i], "--parts")) is_in_parts = 1;
        else if (!strcmp(argv[i], "--idle")) idle = time_of(argv[i], argv[i + 1], SECOND), i++;
        else if (!strcmp(argv[i], "--timeout")) timeout = time_of(argv[i], argv[i + 1], SECOND), i++;
        else if (!strcmp(argv[i], "--poll")) interval = time_of(argv[i], argv[i + 1], 1), interval += !interval, i++;
        else return fail("usage", usage);
    }
    if (argc < 2) return fail("usage", usage);
    hound_file_set_binary(1);
    path = argv[1], last_news = hound_file_milliseconds();
    while (hound_follow_open(&follow, path) < 0)
        if (follow.file.fault != ENOENT || timeout == 0 || is_late()) return fail(path, strerror(follow.file.fault));
    for (number = 2;; number++) {
        if (is_in_parts) next = names[number % 2];
        if (is_in_parts && hound_file_part(argv[1], number, names[number % 2], sizeof names[0]) < 0)
            return fail(path, "the path is too long");
        status = copy(path, next);
        if (status == 0) status = report(path);
        hound_follow_close(&follow);
        if (status != 0 || !next) return status;
        /* A recorder makes and locks the next file before it unlocks this one. */
        if (hound_follow_open(&follow, path = next) < 0)
            return follow.file.fault == ENOENT ? 0 : fail(path, strerror(follow.file.fault));
    }
}
