#!/usr/bin/env python3
"""Does what docs/USING.md says, as a reader would: copies the library into a new repository, makes the
crate that the page shows, runs it by `rt try`, and looks at what it prints and at the file it leaves.

usage: scripts/try_using.py"""
import os
import re
import subprocess
import sys
import tempfile
import wave

TOP = os.path.dirname(os.path.dirname(os.path.abspath(__file__)))


def main():
    with open(os.path.join(TOP, "docs", "USING.md")) as file:
        page = file.read()
    commands = re.search(r"```sh\n(.*?)```", page, flags=re.S).group(1)
    program = re.search(r"```rust\n(.*?)```", page, flags=re.S).group(1)
    printed = re.search(r"print (\d+)\.", page).group(1)
    with tempfile.TemporaryDirectory(prefix="hound_using_") as folder:
        # The page's commands are for a clone of this repository.
        script = commands.replace(
            "mkdir ../mine && scripts/vendor.sh ../mine", f"mkdir mine && {TOP}/scripts/vendor.sh mine > /dev/null"
        ).replace("cd ../mine", "cd mine")
        subprocess.run(["bash", "-eu", "-c", script], cwd=folder, check=True, capture_output=True)
        crate = os.path.join(folder, "mine", "crates", "mine")
        with open(os.path.join(crate, "src", "main.rt"), "w") as file:
            file.write(program)
        saw = os.path.join(folder, "saw.wav")
        ran = subprocess.run(["rt", "try", "--", saw], cwd=crate, capture_output=True, text=True)
        if ran.returncode or ran.stdout.split("\n")[0] != printed:
            sys.exit(f"using: the program of docs/USING.md prints {ran.stdout!r}, and not {printed}\n{ran.stderr}")
        with wave.open(saw) as file:
            frames = file.readframes(5000)
        wanted = b"".join((time % 100 * 300).to_bytes(2, "little") for time in range(4800))
        if frames != wanted:
            sys.exit("using: the program of docs/USING.md leaves another file")
    print("using: the program of docs/USING.md runs as it stands")


main()
