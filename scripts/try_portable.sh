#!/usr/bin/env bash
# Tries bindings/c/hound_c.c, the library for computers that bindings/lib has no other for, by each compiler, and on
# each emulated computer, that is here: its answers to bindings/tests/requests.py, which have to be those of this
# processor's library, the calls of calls.c, hostile files, descriptors.c, recordings over the disk of disk.c, and the
# programs of bindings/c, whose files have to be those of this processor's; and that it is rejected where it would be
# wrong. Then bindings/c/board.c on emulated boards without a system, and what can only be compiled here.
#   scripts/try_portable.sh [TARGET..]     (all that can be tried here)
#   scripts/try_portable.sh --wrong        (wrong versions of the converter, of bindings/tests/portable.tsv: each found)
#   scripts/try_portable.sh --reached      (how many lines of the C file the answers and the calls execute)
set -u -o pipefail
cd "$(dirname "$0")/.."
top=$PWD
work=$(mktemp -d)
trap 'rm -rf "$work"' EXIT
export WINEDEBUG=-all WINEPREFIX=$work/wine
tests=bindings/tests
source=bindings/c/hound_c.c
library=bindings/lib/$(uname -m)-linux/libhound_c.a
flags="-I$top/bindings/c -Wall -Wextra -Werror"
no_recovery=-fno-sanitize-recover=all
failed=0 tried=0

python3 $tests/requests.py > "$work/requests"
gcc $flags -O1 $tests/answer.c "$library" -o "$work/native" && "$work/native" < "$work/requests" > "$work/answers" \
    || exit 1
gcc $flags -I$tests/board -O1 $tests/board/board.c "$library" -o "$work/native" \
    && "$work/native" > "$work/board.here" || { cat "$work/board.here"; exit 1; }
mkdir "$work/here"
for program in cat follow read record repair; do
    gcc $flags -O1 "bindings/c/$program.c" "$library" -o "$work/here/$program" || exit 1
done

say() { echo "portable: $*"; }
is_here() { [ -z "$1" ] || command -v "${1%% *}" > /dev/null; }

# What a target's programs differ in, if they do.
difference() { # NAME RUN COMPILER..
    local name=$1 run=$2 more= test
    shift 2
    "$@" -std=c99 -pedantic $flags -c "$source" -o "$work/$name.o" > "$work/log" 2>&1 \
        || { echo "it doesn't compile: $(head -n 1 "$work/log")"; return; }
    [[ $name != windows* ]] || more="-I$tests/windows -D__USE_MINGW_ANSI_STDIO=1"
    for test in answer calls hostile descriptors disk; do
        "$@" -std=gnu99 $flags $more "$tests/$test.c" "$work/$name.o" -o "$work/$name.$test.exe" > "$work/log" 2>&1 \
            || { echo "$test.c doesn't compile: $(head -n 1 "$work/log")"; return; }
    done
    $run "$work/$name.answer.exe" < "$work/requests" 2> "$work/log" | tr -d '\r' | cmp - "$work/answers" 2>&1 || return
    $run "$work/$name.calls.exe" 2>&1 | tr -d '\r' | grep -qx 'calls: each call returned what it must' \
        || { echo "a call of calls.c returns something else"; return; }
    $run "$work/$name.hostile.exe" 20000 2>&1 | tr -d '\r' | grep -q '^hostile: 20000 files' \
        || { echo "a hostile file isn't read as it should be"; return; }
    $run "$work/$name.disk.exe" 10000 2>&1 | tr -d '\r' | grep -q 'none is wrong$' \
        || { echo "a recording over a simulated disk is wrong"; return; }
    $run "$work/$name.descriptors.exe" "$work/descriptors.wav" 2>&1 | tr -d '\r' | grep -q '^descriptors: a file' \
        || { echo "hound_file.h performs what it can't"; return; }
    programs "$name" "$run" "$@" || return
    [[ $name != windows* ]] || loaded "$run" "$@"
}
# The programs of bindings/c, and their wrong versions for Windows.
programs() { # NAME RUN COMPILER..
    local name=$1 run=$2 program
    shift 2
    mkdir "$work/$name"
    for program in cat follow read record repair; do
        "$@" -std=gnu99 -pedantic $flags "bindings/c/$program.c" "$work/$name.o" -o "$work/$name/$program.exe" > \
            "$work/log" 2>&1 \
            || { echo "$program.c doesn't compile: $(head -n 1 "$work/log")"; return 1; }
    done
    python3 $tests/programs.py "$work/here" "$work/$name" $run > "$work/log" 2>&1 \
        || { echo "other programs: $(tail -n 1 "$work/log")"; return 1; }
    [[ $name != windows* ]] || { mkdir "$work/wrong" \
        && python3 $tests/programs.py --wrong "$work/here" "$work/wrong" $run "$work/$name.o" "$@" > "$work/log" 2>&1;
            } \
        || { echo "wrong programs: $(tail -n 1 "$work/log")"; return 1; }
}
# Loads the DLL that pip makes on Windows by a compiler, with all functions of hound.h.
loaded() { # RUN COMPILER..
    local run=$1 functions
    shift
    functions=$(sed -nE 's/^(int32_t|int64_t|void) (hound_[a-z0-9_]+)\(.*/\2/p' bindings/c/hound.h)
    CC=$1 PYTHONPATH=bindings/python python3 -B -c \
        'import backend, sys; backend.system = lambda: ("Windows", "amd64", False); backend.shared_library(sys.argv[1])' \
        "$work" > "$work/log" 2>&1 || { echo "pip makes no DLL: $(tail -n 1 "$work/log")"; return; }
    "$@" -std=gnu99 $flags -D__USE_MINGW_ANSI_STDIO=1 $tests/windows/load.c -o "$work/load.exe" > "$work/log" 2>&1 \
        || { echo "load.c doesn't compile: $(head -n 1 "$work/log")"; return; }
    $run "$work/load.exe" "$work/hound_c.dll" $functions 2>&1 | tr -d '\r' \
        | grep -qx "load: $(wc -w <<< "$functions") functions, and the samples that were written" \
        || echo "pip's DLL isn't loaded"
}
target() { # NAME RUN COMPILER..
    local name=$1 run=$2 found
    shift 2
    [ ${#only[@]} -eq 0 ] || [[ " ${only[*]} " == *" $name "* ]] || return 0
    if ! is_here "$1" || ! is_here "$run" || ! echo 'int main(void) { return 0; }' \
        | "$@" -x c - -o "$work/empty" 2> /dev/null; then
        say "passed over, since ${1} or ${run%% *} isn't here: $name"
        return
    fi
    tried=$((tried + 1))
    found=$(difference "$name" "$run" "$@")
    if [ -n "$found" ]; then
        failed=$((failed + 1))
        say "FAILED: $name: $found"
    else
        say "$name: $(wc -l < "$work/answers") answers, calls.c, hostile files, a simulated disk and the programs"
    fi
}
# bindings/c/board.c with power failures, for the processor of a board, and on it.
on_board="-std=c99 -pedantic $flags -I$tests/board -Os -ffunction-sections -fdata-sections -Wl,--gc-sections"
board() { # NAME RUN COMPILER..
    local name=$1 run=$2
    shift 2
    [ ${#only[@]} -eq 0 ] || [[ " ${only[*]} " == *" $name "* ]] || return 0
    if ! is_here "$1" || ! is_here "$run" || ! echo 'int main(void) { return 0; }' \
        | "$@" -x c - -o "$work/empty" 2> /dev/null; then
        say "passed over, since ${1} with its C library or ${run%% *} isn't here: board.c on $name"
        return
    fi
    tried=$((tried + 1))
    if "$@" $on_board $tests/board/board.c "$source" -o "$work/board" > "$work/log" 2>&1 \
        && timeout 120 $run "$work/board" > "$work/said" 2>&1 \
            && cmp "$work/said" "$work/board.here" > "$work/log" 2>&1; then
        say "$name: $(cat "$work/said")"
    else
        failed=$((failed + 1))
        say "FAILED: board.c on $name: $(head -n 1 "$work/log")"
    fi
}
# Wrong versions of board.c, each of which has to be found.
wrong_boards() {
    local edit
    mkdir -p "$work/wrong_board/c" "$work/wrong_board/tests"
    cp -r $tests/board "$work/wrong_board/tests"
    gcc -w -O1 -c "$source" -o "$work/wrong_board/hound_c.o" || exit 1
    for edit in 's/result = f_sync(file), /result = FR_OK, /' 's/effect->report = .*/effect->report = HOUND_DONE;/' \
        's/result = f_truncate(file)/result = FR_OK/' \
        's/? block : effect->bytes/? effect->bytes : block/' \
            '/HOUND_WRITE_BLOCK:$/,/break/s/result = f_lseek(.*;/result = FR_OK;/' \
            's/HOUND_REPAIR, /HOUND_FIND_DAMAGE, /' \
        's/hound_recorder_checkpoint(recorder);//' 's/int is_there = .*/int is_there = 1;/'; do
        tried=$((tried + 1))
        sed "$edit" bindings/c/board.c > "$work/wrong_board/c/board.c"
        gcc -w -O1 -Ibindings/c "-I$tests/board" "$work/wrong_board/tests/board/board.c" "$work/wrong_board/hound_c.o" \
            -o "$work/board" 2> "$work/log" && timeout 60 "$work/board" > "$work/said"
        if [ $? -eq 1 ] && grep -q '^board: ' "$work/said" \
            && ! cmp -s bindings/c/board.c "$work/wrong_board/c/board.c"; then
            say "wrong: board.c: $edit: found"
        else
            failed=$((failed + 1))
            say "FAILED: this wrong board.c isn't found: $edit"
        fi
    done
}
has_headers() { # FOLDER PACKAGE SYSTEM
    [ -e "$1/stdlib.h" ] \
        || { say "passed over, since $1 isn't here (Debian: $2): the programs by clang for $3"; return 1; }
}
# Compiles for a system that isn't emulated here. Where its own headers aren't here, either, those of another one are
# taken, or hound_c.c alone is compiled.
compiled() { # TARGET FILE.. -- FLAG..
    local target=$1 files=() file
    shift
    while [ "$1" != -- ]; do files+=("$1"); shift; done
    shift
    if ! is_here clang; then
        say "passed over, since clang isn't here: ${files[*]} for $target"
        return
    fi
    tried=$((tried + 1))
    for file in "${files[@]}"; do
        if ! clang "--target=$target" -std=c99 -O2 $flags "$@" -c "bindings/c/$file.c" -o "$work/compiled.o" > \
            "$work/log" 2>&1; then
            failed=$((failed + 1))
            say "FAILED: $file.c for $target: $(head -n 1 "$work/log")"
            return
        fi
    done
    say "compiled for $target: ${files[*]}"
}
# A compiler that would make something wrong of it rejects it, with this sentence.
rejected() { # SENTENCE COMPILER..
    local sentence=$1
    shift
    is_here "$1" && echo '#include <stdint.h>' | "$@" -x c -fsyntax-only - 2> /dev/null || return 0
    tried=$((tried + 1))
    if ! "$@" -std=c99 $flags -fsyntax-only "$source" > "$work/log" 2>&1 && grep -q "$sentence" "$work/log"; then
        say "rejected: $*"
    else
        failed=$((failed + 1))
        say "FAILED: not rejected: $*"
    fi
}

# Makes the C file by each wrong version of the converter in turn.
wrong() {
    local file old new what found missed=0 count=0 status
    cp -r scripts/portable "$work/right"
    while IFS=$'\t' read -r file old new what; do
        rm -rf "$work/portable" && cp -r "$work/right" "$work/portable"
        python3 - "$work/portable/$file" "$old" "$new" <<'PYTHON' || exit 1
import sys
path, old, new = sys.argv[1:]
text = open(path).read()
old, new = (part.replace("\\n", "\n") for part in (old, new))
if text.count(old) != 1:
    sys.exit(f"portable: {path} has {text.count(old)} times: {old}")
open(path, "w").write(text.replace(old, new))
PYTHON
        count=$((count + 1)) found=
        if ! python3 "$work/portable/convert.py" bindings/lib/hound_c.wasm bindings/c/hound.h > "$work/wrong.c" 2> \
            "$work/log"; then
            found="the converter: $(tail -n 1 "$work/log")"
        elif ! gcc -std=gnu99 -w -O1 -Ibindings/c $tests/answer.c "$work/wrong.c" -o "$work/wrong" 2> "$work/log"; then
            found="the compiler"
        else
            timeout 60 "$work/wrong" < "$work/requests" > "$work/said" 2> "$work/log"
            status=$?
            if [ $status -ne 0 ]; then found="status $status"; elif ! cmp -s "$work/said" "$work/answers";
                then found="the answers"; fi
        fi
        [ -n "$found$what" ] || missed=$((missed + 1))
        say "wrong: $file: $old -> $new: ${found:-NOT FOUND ${what:+($what)}}"
    done < <(grep -v '^#' $tests/portable.tsv)
    say "$count wrong versions of the converter, $missed not found and not explained"
    return $((missed > 0))
}

# The lines that the answers and the calls execute, of those that have code.
reached() {
    gcc -std=gnu99 -w -O0 --coverage -Ibindings/c -c "$source" -o "$work/hound_c.o" || return 1
    for test in answer calls; do gcc -std=gnu99 -w --coverage -Ibindings/c $tests/$test.c "$work/hound_c.o" -o \
        "$work/$test" || return 1; done
    "$work/answer" < "$work/requests" > "$work/said" && cmp "$work/said" "$work/answers" && "$work/calls" || return 1
    (cd "$work" && gcov -o "$work" hound_c.o | grep -A 1 "hound_c.c'")
}

case ${1:-} in --wrong | --reached) only=() && "${1#--}"; exit $? ;; esac
only=("$@")
target gcc "" gcc -O3
target gcc-unoptimized "" gcc -O0
target clang "" clang -O2
target gcc-sanitized "" gcc -O1 -fsanitize=address,undefined $no_recovery
target clang-sanitized "" clang -O1 -fsanitize=undefined $no_recovery
target i686 "" gcc -m32 -O2 -msse2 -mfpmath=sse -idirafter "/usr/include/$(uname -m)-linux-gnu" # where Debian has asm
target armhf "qemu-arm -L /usr/arm-linux-gnueabihf" arm-linux-gnueabihf-gcc -O2
target aarch64 "qemu-aarch64 -L /usr/aarch64-linux-gnu" aarch64-linux-gnu-gcc -O2
target riscv64 "qemu-riscv64 -L /usr/riscv64-linux-gnu" riscv64-linux-gnu-gcc -O2
target windows "wine" x86_64-w64-mingw32-gcc -O2 -static
on_qemu="-nographic -monitor none -serial none -semihosting-config enable=on,target=native -kernel"
on_picolibc="--specs=picolibc.specs --oslib=semihost --crt0=hosted -Tpicolibc.ld -Wl,--defsym=__ram_size=0x10000,--defsym=__stack_size=0x1000"
for processor in cortex-m0plus cortex-m3; do
    board $processor "qemu-system-arm -M mps2-an385 $on_qemu" arm-none-eabi-gcc -mcpu=$processor -mthumb $on_picolibc \
        -Wl,--defsym=__flash=0,--defsym=__flash_size=0x400000,--defsym=__ram=0x20000000
done
board riscv32 "qemu-system-riscv32 -M virt -bios none $on_qemu" riscv64-unknown-elf-gcc -march=rv32imac -mabi=ilp32 \
    $on_picolibc \
    -Wl,--defsym=__flash=0x80000000,--defsym=__flash_size=0x100000,--defsym=__ram=0x80100000
if [ ${#only[@]} -eq 0 ]; then
    wrong_boards
    tried=$((tried + 1))
    scripts/measure_board.py --check || failed=$((failed + 1))
    mkdir "$work/declared"
    echo 'void abort(void);' > "$work/declared/stdlib.h"
    printf '#include <stddef.h>\nvoid *memcpy(void *, const void *, size_t), *memmove(void *, const void *, size_t), *memset(void *, int, size_t);\n' > "$work/declared/string.h"
    compiled arm64-apple-macos hound_c -- -ffreestanding
    compiled x86_64-unknown-freebsd hound_c -- -ffreestanding
    compiled x86_64-pc-windows-msvc hound_c -- -isystem "$work/declared"
    mingw=/usr/x86_64-w64-mingw32/include musl=/usr/include/x86_64-linux-musl
    if has_headers $mingw mingw-w64-x86-64-dev Windows; then
        compiled x86_64-pc-windows-msvc cat follow read record repair -- -isystem $mingw -U_MSC_VER -D__GNUC__=4 \
            -D__MINGW32__ -D__MINGW64__
    fi
    if has_headers $musl musl-dev "macOS and FreeBSD"; then
        compiled arm64-apple-macos cat follow read record repair -- -isystem $musl -DF_FULLFSYNC=51
        compiled x86_64-unknown-freebsd cat follow read record repair -- -isystem $musl
    fi
    rejected "compile it without -ffast-math" gcc -ffast-math
    rejected "needs floats as they are stored" gcc -m32 -mno-sse -mfpmath=387
    rejected "is for little-endian processors" gcc -U__BYTE_ORDER__ -D__BYTE_ORDER__=4321 -Wno-builtin-macro-redefined
fi
say "$((tried - failed)) of $tried checks of hound_c.c"
[ "$failed" -eq 0 ]
