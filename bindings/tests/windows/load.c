/* Loads the DLL that is its first argument, looks for the functions that the others name, and writes and reads by it.
   */
#include "hound.h"
#include <stdio.h>
#include <windows.h>

typedef int64_t write_function(const hound_spec *, const int16_t *, size_t, uint8_t *, size_t);
typedef int64_t read_function(const uint8_t *, size_t, uint64_t, int16_t *, size_t);

int main(int argc, char **argv) {
    HMODULE library = argc > 1 ? LoadLibraryA(argv[1]) : NULL;
    if (!library) return fprintf(stderr, "load: no library: %lu\n", GetLastError()), 1;
    for (int i = 2; i < argc; i++)
        if (!GetProcAddress(library, argv[i])) return fprintf(stderr, "load: it has no %s\n", argv[i]), 1;
    write_function *write = (write_function *)(void *)GetProcAddress(library, "hound_write_i16");
    read_function *read = (read_function *)(void *)GetProcAddress(library, "hound_read_i16");
    const hound_spec spec = {.sample_rate = 44100, .channels = 2, .bits_per_sample = 16};
    const int16_t samples[4] = {1, -2, 300, -30000};
    int16_t back[4] = {0};
    uint8_t file[52];
    if (write(&spec, samples, 4, file, sizeof file) != 52)
        return fprintf(stderr, "load: it writes something else\n"), 1;
    if (read(file, sizeof file, 0, back, 4) != 4
        || back[0] != 1 || back[1] != -2 || back[2] != 300 || back[3] != -30000)
        return fprintf(stderr, "load: it reads something else\n"), 1;
    printf("load: %d functions, and the samples that were written\n", argc - 2);
    return 0;
}
