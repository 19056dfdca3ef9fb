# What `hound` and `test` look at before they start: the Rattle kit, its version, and memory.

PROVED_WITH="rattle-kit-13f logic dac8208d650f15bf"
LEAST_MEMORY=8 # GB

# Ends with a line where nothing can be proved here.
look_at_kit() {
    if ! command -v rt > /dev/null 2>&1; then
        echo "$1: the command rt of the Rattle kit is not on the PATH, and nothing is proved without it" >&2
        exit 1
    fi
    kit=$(rt version)
    # Another kit with the same logic will do, as 13b.
    if [ "${kit#* }" != "${PROVED_WITH#* }" ] && [ "${HOUND_KIT:-}" != any ]; then
        echo "$1: this kit is $kit, and all was proved with $PROVED_WITH; with HOUND_KIT=any in the environment it is tried all the same" >&2
        exit 1
    fi
    memory=$(awk '/^MemTotal/ { print int($2 / 1000000) }' /proc/meminfo 2> /dev/null || echo "$LEAST_MEMORY")
    if [ "$memory" -lt "$LEAST_MEMORY" ]; then
        echo "$1: this machine has $memory GB of memory, and proving needs $LEAST_MEMORY" >&2
        exit 1
    fi
}
