/* What a program reads of four bytes that another one writes meanwhile: why a follower reads a data length byte by
   byte, from the last one to the first.
     cc -O2 bindings/tests/torn.c -o torn && ./torn FILE PLACE WAY LOOKS
   One process writes growing numbers to a place of the file without a pause, each by one `pwrite` of four bytes, and
   this one reads them in this way:
     once    by one `pread` of the four bytes
     front   by one of all bytes up to their end, as of a header
     page    by one of 4096 bytes from the file's first one on
     up      by four of a byte each, from the first to the last
     down    from the last to the first
   It says how many of so many looks found more than any write had begun by then, which is too much, and how many found
   a number that is never written, which is torn. It needs two processors. */
#define _GNU_SOURCE
#include <fcntl.h>
#include <signal.h>
#include <stdint.h>
#include <stdio.h>
#include <stdlib.h>
#include <string.h>
#include <sys/mman.h>
#include <sys/prctl.h>
#include <sys/wait.h>
#include <unistd.h>

enum { PAGE = 4096, STEP = 0xf1 };
static struct { volatile uint32_t begun, done; volatile int is_over; } *shared;
static int file, place;

static void stop(const char *why) { perror(why), exit(2); }

static void write_all(void) {
    uint32_t number = 0;
    prctl(PR_SET_PDEATHSIG, SIGKILL);
    for (; !shared->is_over && number < 0xf0000000u; shared->done = number) {
        shared->begun = number += STEP;
        if (pwrite(file, &number, 4, place) != 4) stop("torn: writing");
    }
}

static void take(uint8_t *out, int count, int from) {
    if (pread(file, out, (size_t)count, from) != count) stop("torn: reading");
}
/* The number that one look finds. */
static uint32_t look(char way) {
    static uint8_t bytes[PAGE + 4];
    const uint8_t *number = bytes;
    switch (way) {
    case 'o': take(bytes, 4, place); break;
    case 'f': take(bytes, place + 4, 0), number += place; break;
    case 'p': take(bytes, PAGE, 0), number += place; break;
    case 'u': for (int i = 0; i < 4; i++) take(bytes + i, 1, place + i); break;
    default: for (int i = 3; i >= 0; i--) take(bytes + i, 1, place + i);
    }
    return number[0] | (uint32_t)number[1] << 8 | (uint32_t)number[2] << 16 | (uint32_t)number[3] << 24;
}

int main(int argc, char **argv) {
    static const uint8_t zeros[2 * PAGE];
    if (argc != 5 || !strchr("ofpud", *argv[3]) || (place = atoi(argv[2])) < 0 || place > PAGE - 4)
        return fprintf(stderr, "usage: torn FILE PLACE once|front|page|up|down LOOKS\n"), 2;
    unsigned long long looks = strtoull(argv[4], NULL, 10), too_much = 0, torn = 0, changes = 0;
    file = open(argv[1], O_RDWR | O_CREAT | O_TRUNC, 0666);
    if (file < 0 || pwrite(file, zeros, sizeof zeros, 0) < 0) stop("torn");
    shared = mmap(NULL, sizeof *shared, PROT_READ | PROT_WRITE, MAP_SHARED | MAP_ANONYMOUS, -1, 0);
    if (shared == MAP_FAILED) stop("torn");
    pid_t writer = fork();
    if (writer == 0) write_all(), _exit(0);
    uint32_t last = 0, first[3] = {0, 0, 0};
    for (unsigned long long i = 0; i < looks; i++) {
        uint32_t done = shared->done, found = look(*argv[3]), begun = shared->begun;
        if (found > begun && too_much++ == 0) first[0] = done, first[1] = found, first[2] = begun;
        torn += found % STEP != 0, changes += found != last, last = found;
    }
    shared->is_over = 1;
    waitpid(writer, NULL, 0);
    unlink(argv[1]);
    printf("torn: %s: %llu looks, of which %llu found another number; %llu too much, %llu torn", argv[3], looks,
           changes, too_much, torn);
    if (too_much) printf(" (such as %#x, after %#x and before %#x)", first[1], first[0], first[2]);
    puts("");
    return 0;
}
