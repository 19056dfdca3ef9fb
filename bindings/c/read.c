/* Reads a WAV file, and prints its form and the peak of each channel, where 1 is full scale.
     cc -Ibindings/c bindings/c/read.c bindings/lib/x86_64-linux/libhound_c.a -o read && ./read take.wav */
#include "hound_file.h"

int main(int argc, char **argv) {
    hound_file file;
    hound_info_t info;
    float *samples;
    hound_file_arguments(&argc, &argv);
    const char *path = argc > 1 ? argv[1] : "take.wav";
    int32_t code = hound_file_read_f32(&file, path, &info, &samples);
    if (code < 0) {
        char sentence[HOUND_FILE_SENTENCE];
        return fprintf(stderr, "%s: %s\n", path, hound_file_reason(&file, code, sentence)), 1;
    }
    unsigned channels = info.spec.channels;
    printf("%u Hz, %u bits, %u frames\n", info.spec.sample_rate, info.spec.bits_per_sample, info.samples / channels);
    for (unsigned channel = 0; channel < channels; channel++) {
        float peak = 0;
        for (size_t i = channel; i < info.samples; i += channels)
            if (samples[i] > peak || -samples[i] > peak) peak = samples[i] < 0 ? -samples[i] : samples[i];
        printf("channel %u: peak %g\n", channel + 1, peak);
    }
    free(samples);
    return 0;
}
