# What scripts/try_bindings.sh, scripts/try_install.sh and scripts/release.sh share.

subject=$(basename "$0" .sh)
subject=${subject#try_}
unset HOUND_C_LIB HOUND_C_LIBRARY HOUND_C_SOURCE
export PYTHONDONTWRITEBYTECODE=1

# The command that takes the network from another one, where it is allowed.
offline="unshare -rn"
if ! $offline true 2> /dev/null; then
    offline=
    echo "$subject: passed over, since unshare isn't allowed here: that pip and cargo need no network"
fi

# The first Python that has numpy, as Debian's has by its package python3-numpy; else the first on the path.
python_with_numpy() {
    local python
    for python in $(type -ap python3); do
        ! "$python" -c 'import numpy' 2> /dev/null || { echo "$python"; return; }
    done
    command -v python3
}

# Writes the first program of docs/BINDINGS.md, or of another page, that begins with the fence of that language; after
# this heading, if one is given.
page() { # LANGUAGE [PAGE [HEADING]]
    awk -v fence="\`\`\`$1" -v after="${3:-}" \
        'after == "" || $0 == after { begun = 1 }
        begun && $0 == fence && !done { on = 1; next } /^```/ && on { on = 0; done = 1 } on' "${2:-docs/BINDINGS.md}"
}

# Lines that name what a check has passed over, out of what it wrote, that of unittest included.
passed_over() {
    sed -nE -e "s/^.*(passed over, since .*)$/$subject: \\1/p" \
        -e "s/^(.*) \.\.\. skipped ['\"](.*)['\"]$/$subject: passed over, since \\2: \\1/p" "$work/log"
}

# Runs a command; its output is written where it fails.
tried=0
passed=0
check() { # WHAT COMMAND..
    tried=$((tried + 1))
    if (shift; "$@") > "$work/log" 2>&1; then
        passed=$((passed + 1))
        echo "$subject: $1"
        passed_over
    else
        echo "$subject: FAILED: $1"
        tail -n 20 "$work/log"
    fi
}

has() { # PROGRAM WHAT
    command -v "$1" > /dev/null 2>&1 || { echo "$subject: passed over, since $1 isn't here: $2"; return 1; }
}

# The files of this repository, also where git doesn't read it.
files() {
    git ls-files -z -co --exclude-standard 2> /dev/null \
        || find . -type f -not -path './.git*' -not -path '*/out/*' -print0
}

# Makes a clone of what is here, as if it were committed.
clone_to() { # FOLDER
    mkdir "$1" && files | tar -c --null -T - --ignore-failed-read | tar -x -C "$1" || return 1
    git -C "$1" init -q && git -C "$1" add -A \
        && git -C "$1" -c user.name=nobody -c user.email=nobody commit -qm "what is here"
}
