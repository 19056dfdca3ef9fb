#!/usr/bin/env bash
# Installs the Debian packages whose programs the checks use, where one is missing and apt-get works: as root, on Debian
# 12. `.ci/run` calls it, so that no check is passed over for want of a program. The status is 0 if all are installed
# afterwards, 1 if one isn't, and 2 if nothing can be installed here, or apt-get doesn't have some of them.
#   scripts/install_tools.sh             installs them
#   scripts/install_tools.sh --list      writes their names
set -u
export DEBIAN_FRONTEND=noninteractive

packages=(
    # C: another compiler with its sanitizers, CMake, memory checks, failing system calls
    clang libclang-rt-14-dev cmake valgrind strace pkg-config libc6-dev-i386 lib32gcc-12-dev
    # Python: virtual environments, types, other readers of WAV files
    python3-venv python3-numpy python3-soundfile mypy pipx sox libsox-fmt-all ffmpeg
    # Rust for Windows and WebAssembly
    cargo rustc libstd-rust-dev-windows libstd-rust-dev-wasm32
    # JavaScript: a bundler, types, browsers, and a display on which files are dragged
    esbuild node-typescript chromium firefox-esr xvfb xdotool python3-gi gir1.2-gtk-3.0
    # WebAssembly
    binaryen
    # Other processors and systems, and their emulators
    qemu-user qemu-system-arm qemu-system-misc wine wine64 gcc-mingw-w64-x86-64
    gcc-aarch64-linux-gnu libc6-dev-arm64-cross gcc-arm-linux-gnueabihf libc6-dev-armhf-cross
    gcc-riscv64-linux-gnu libc6-dev-riscv64-cross mingw-w64-x86-64-dev musl-dev
    gcc-arm-none-eabi libnewlib-arm-none-eabi picolibc-arm-none-eabi
    gcc-riscv64-unknown-elf picolibc-riscv64-unknown-elf
)

if [ "${1:-}" = --list ]; then
    printf '%s\n' "${packages[@]}"
    exit
fi
missing() {
    local package
    for package in "${packages[@]}"; do
        [ "$(dpkg-query -W -f '${db:Status-Status}' "$package" 2> /dev/null)" = installed ] || echo "$package"
    done
}
mapfile -t wanted < <(missing)
[ "${#wanted[@]}" -gt 0 ] || exit 0
if ! command -v apt-get > /dev/null || [ "$(id -u)" -ne 0 ]; then
    echo "install_tools: not root on Debian, so these aren't installed: ${wanted[*]}"
    exit 2
fi
echo "install_tools: installing ${wanted[*]}"
log=$(mktemp)
trap 'rm -f "$log"' EXIT
apt_get() { apt-get -qq -o Acquire::Retries=5 -o DPkg::Lock::Timeout=300 --no-install-recommends "$@" > "$log" 2>&1; }
apt_get update || echo "install_tools: apt-get update: $(tail -n 1 "$log")"
# All at once takes less time; one by one, where one of them isn't there, says which.
status=0
if ! apt_get install -y "${wanted[@]}"; then
    for package in "${wanted[@]}"; do
        apt_get install -y "$package" && continue
        if grep -qE 'Unable to locate package|has no installation candidate' "$log"; then
            echo "install_tools: apt-get has no package $package"
            [ "$status" -ne 0 ] || status=2
        else
            echo "install_tools: $package isn't installed: $(tail -n 1 "$log")"
            status=1
        fi
    done
fi
exit "$status"
