#!/usr/bin/env bash
# Has other programs make the files of other programs that stdin names, in a folder that it is given.
# Run it as: ./foreign.sh FOLDER
# It needs sox, ffmpeg, flac, wavpack, GStreamer with its plugins "good", python3 with soundfile and
# mutagen.
set -eu
cd "$1"

# Bare numbers, as bytes: eight bits, sixteen, thirty-two, and floats.
printf '\x93\x4b\xd9\x01\x80' > five.u8
printf '\x00\xff\x81' > three.u8
printf '\x02\0\xfd\xff\x05\0\xf9\xff\x0b\0' > five.s16
printf '\x0b\0\xf3\xff\x11\0' > three.s16
printf '\xa8\xfd\xf4\x01\x70\xfe\x2c\x01\x38\xff\x64\0' > six.s16
printf '\x13\0\0\0\x03\x80\xfc\xff\xd9\x7f\0\x02\x97\0\0\x80' > four.s32
printf '\0\xef\xff\xff\0\x0f\0\x40\0\x13\0\xa0\0\xe9\x7f\x7f\0\xff\xff\xff' > five.s32
printf '\0\0\0\x3f\0\0\x80\xbe\0\0\x40\x3f' > three.f32

by_sox() { sox -D -r 44100 -t "${1##*.}" -c "$2" "$1" -b "$3" "$4.wav"; }
by_sox five.u8 1 8 sox_8_bits
by_sox five.s32 1 24 sox_24_bits
by_sox three.f32 1 32 sox_floats
by_sox three.u8 3 8 sox_three_channels

by_ffmpeg() {
    file=$1 channels=$2 codec=$3 name=$4
    shift 4
    ffmpeg -v error -nostdin -f "${file##*.}le" -ar 48000 -ac "$channels" -i "$file" \
        -c:a "$codec" "$@" "$name.wav"
}
by_ffmpeg five.s16 1 pcm_s16le ffmpeg_list -metadata title=odd
by_ffmpeg three.s16 1 pcm_s16le ffmpeg_bext -bitexact -write_bext 1 -metadata coding_history=A=PC
by_ffmpeg four.s32 2 pcm_s32le ffmpeg_32_bits
by_ffmpeg six.s16 6 pcm_s16le ffmpeg_six_channels
by_ffmpeg three.f32 1 pcm_f32le ffmpeg_floats
by_ffmpeg five.s32 1 pcm_s24le ffmpeg_title -bitexact -metadata title=ab

flac -s -o packed.flac sox_24_bits.wav
flac -s -d -o flac_24_bits.wav packed.flac
wavpack -q sox_8_bits.wav -o packed.wv
wvunpack -q -w packed.wv -o wavpack_8_bits.wav
gst-launch-1.0 -q filesrc location=sox_floats.wav ! wavparse ! taginject tags='title="gst"' \
    ! wavenc ! filesink location=gstreamer_floats.wav
cp sox_8_bits.wav mutagen_id3.wav

python3 - <<'END'
import wave, mutagen.id3, mutagen.wave, numpy, soundfile

with soundfile.SoundFile("libsndfile_strings.wav", "w", 8000, 1, subtype="PCM_24") as file:
    file.title = "abcd"
    file.write(numpy.array([1, -1, 3], dtype="int32") * 256)
    file.comment = "behind"
frames = numpy.array([[0.5, -0.25], [0.125, -1.0]], dtype="float32")
soundfile.write("libsndfile_floats.wav", frames, 44100, format="WAVEX", subtype="FLOAT")
file = mutagen.wave.WAVE("mutagen_id3.wav")
file.add_tags()
file.tags.add(mutagen.id3.TIT2(encoding=3, text=["odd"]))
file.save(padding=lambda info: 0)
with wave.open("python_8_bits.wav", "wb") as file:
    file.setparams((1, 1, 8000, 0, "NONE", None))
    file.writeframes(bytes([147, 75, 217]))

# What none of these programs makes: a file of theirs, and a chunk of it with another length.
def resized(old, new, tag, length, pad=0):
    data = open(old + ".wav", "rb").read()
    at = data.index(tag) + 4
    behind = at + 4 + int.from_bytes(data[at : at + 4], "little")
    content = data[at + 4 : behind][:length].ljust(length, b"\0") + bytes([pad]) * (length % 2)
    data = data[:at] + length.to_bytes(4, "little") + content + data[behind:]
    data = data[:4] + (len(data) - 8).to_bytes(4, "little") + data[8:]
    open(new + ".wav", "wb").write(data)

resized("ffmpeg_title", "list_of_15", b"LIST", 15, 255)
resized("sox_floats", "fact_of_8", b"fact", 8)
resized("sox_three_channels", "fact_of_5", b"fact", 5)
resized("sox_24_bits", "fact_of_none", b"fact", 0)
resized("libsndfile_floats", "fmt_of_42", b"fmt ", 42)
resized("ffmpeg_six_channels", "fmt_of_41", b"fmt ", 41)
END
