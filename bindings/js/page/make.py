#!/usr/bin/env python3
"""Makes the pages hound.html and record.html, of one file each: a template with the style that both share, its scripts,
the package and the WebAssembly module in it. esbuild joins the modules, since two of them may have a name in common.

usage: make.py            writes them
       make.py --check    writes nothing, and fails where they aren't what would be written, or aren't JavaScript

Another esbuild than Debian's may write other bytes. Then --check only looks whether the pages are JavaScript, and says
so."""
import base64
import hashlib
import os
import re
import shutil
import subprocess
import sys
import tempfile

HERE = os.path.dirname(os.path.abspath(__file__))
ESBUILD = "0.17.0"  # Debian 12 has this one.
# Each page, its template, and which mark of the template which script replaces.
PAGES = {
    "hound.html": ("page.html", {"@SCRIPT@": "page.js"}),
    "record.html": (
        "record/page.html",
        {"@SCRIPT@": "record/page.js", "@WORKER@": "record/worker.js", "@WORKLET@": "record/worklet.js"},
    ),
}

# The pages take this instead of module.js: what a browser has, and the WebAssembly module in the page itself.
EMBEDDED = """import bytes from "./hound_c32.wasm";
export * from "./browser.js";
export const module = () => WebAssembly.compile(bytes);
"""


def read(*path):
    with open(os.path.join(HERE, *path), encoding="utf-8") as file:
        return file.read()


def digest(text):
    return base64.b64encode(hashlib.sha256(text.encode()).digest()).decode()


def bundle(entry, folder):
    """A script and the modules that it imports as one."""
    command = ["esbuild", "--log-level=warning", "--bundle", "--format=esm", "--charset=utf8", "--target=es2022",
               "--loader:.wasm=binary", f"page/{entry}"]
    return subprocess.run(command, cwd=folder, check=True, stdout=subprocess.PIPE).stdout.decode()


def bundles():
    """The scripts of all pages by their names."""
    with tempfile.TemporaryDirectory() as folder:
        shutil.copytree(HERE, os.path.join(folder, "page"))
        for name in ("browser.js", "guess.js", "hound.js"):
            shutil.copy(os.path.join(HERE, "..", name), folder)
        shutil.copy(os.path.join(HERE, "..", "..", "lib", "hound_c32.wasm"), folder)
        with open(os.path.join(folder, "module.js"), "w", encoding="utf-8") as file:
            file.write(EMBEDDED)
        entries = [entry for _, scripts in PAGES.values() for entry in scripts.values()]
        return {entry: bundle(entry, folder) for entry in entries}


def made():
    """The pages by their names."""
    texts, style, pages = bundles(), read("style.css"), {}
    for name, (template, scripts) in PAGES.items():
        page = read(template).replace("@STYLE@", style)
        marks = {mark: texts[entry] for mark, entry in scripts.items()}
        marks["@SCRIPT_HASH@"] = digest(marks["@SCRIPT@"])
        marks["@STYLE_HASH@"] = digest(re.search(r"<style>(.*?)</style>", page, flags=re.S).group(1))
        for mark, text in marks.items():
            page = page.replace(mark, text)
        pages[name] = page
    return pages


def check_syntax(name, page):
    """Ends the program where a script of the page isn't JavaScript, or where two of its scripts have a name in common
    that means something else: then all of them as one text aren't."""
    scripts = re.findall(r"<script[^>]*>(.*?)</script>", page, flags=re.S)
    for script in [*scripts, "\n".join(scripts)]:
        with tempfile.TemporaryDirectory() as folder:
            path = os.path.join(folder, "page.mjs")
            with open(path, "w", encoding="utf-8") as file:
                file.write(script)
            if subprocess.run(["node", "--check", path], check=False).returncode != 0:
                sys.exit(f"make: a script of {name} isn't JavaScript")


def has_esbuild():
    if shutil.which("esbuild") is None:
        return False
    version = subprocess.run(["esbuild", "--version"], check=True, stdout=subprocess.PIPE).stdout.decode()
    return version.strip() == ESBUILD


def main():
    if sys.argv[1:] not in ([], ["--check"]):
        sys.exit(__doc__.split("\n\n")[1])
    is_check = bool(sys.argv[1:])
    if not has_esbuild():
        if not is_check:
            sys.exit(f"make: this needs esbuild {ESBUILD} (Debian: esbuild)")
        print(f"page: passed over, since esbuild {ESBUILD} isn't here (Debian: esbuild): that the pages are made")
        pages = {name: read(name) for name in PAGES}
    else:
        pages = made()
    if shutil.which("node") is not None:
        for name, page in pages.items():
            check_syntax(name, page)
    elif is_check:
        print("page: passed over, since node isn't here: that the pages are JavaScript")
    for name, page in pages.items():
        if not is_check:
            with open(os.path.join(HERE, name), "w", encoding="utf-8") as file:
                file.write(page)
        elif page != read(name):
            sys.exit(f"make: bindings/js/page/{name} isn't what make writes")


main()
