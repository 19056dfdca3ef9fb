"""A virtual machine: a packaged kernel, busybox, the programs that it needs, and a script that it runs."""
import glob
import os
import re
import shutil
import subprocess
import tempfile

KERNEL = "linux-image-cloud-amd64"
CACHE = os.path.join(tempfile.gettempdir(), "hound_power_kernel")
ALWAYS = ["virtio_pci", "virtio_blk", "loop"]


class NotHere(Exception):
    """Something is missing that a package has."""


def kernel():
    """A folder with a kernel and its modules: one that is installed, or its package, which is then fetched and
    unpacked."""
    for folder in ["/", CACHE]:
        for image in glob.glob(os.path.join(folder, "boot", "vmlinuz-*-cloud-amd64")):
            version = image.split("vmlinuz-", 1)[1]
            if glob.glob(os.path.join(folder, "lib/modules", version, "kernel")):
                return folder, image, version
    found = subprocess.run(["apt-cache", "depends", KERNEL], capture_output=True, text=True)
    package = re.search(r"Depends: (linux-image-\S+)", found.stdout)
    if not package:
        raise NotHere(f"no kernel: the package {KERNEL} isn't known")
    with tempfile.TemporaryDirectory() as folder:
        words = ["apt-get", "download", package[1]]
        subprocess.run(words, cwd=folder, stdout=subprocess.DEVNULL, stderr=subprocess.DEVNULL)
        fetched = glob.glob(os.path.join(folder, "*.deb"))
        if not fetched:
            raise NotHere(f"no kernel: the package {package[1]} can't be fetched")
        subprocess.run(["dpkg-deb", "-x", fetched[0], CACHE], check=True)
    return kernel()


def modules(folder, version, names):
    """The files of these modules and of what they need, those that come first at the front; one that is built in has
    none."""
    base = os.path.join(folder, "lib/modules", version)
    if not os.path.exists(os.path.join(base, "modules.dep")):
        subprocess.run(["busybox", "depmod", "-b", folder, version], check=True)
    needs = {}
    with open(os.path.join(base, "modules.dep")) as file:
        for line in file:
            path, others = line.split(":")
            needs[os.path.basename(path).split(".ko")[0].replace("-", "_")] = [path, *others.split()]
    order = []
    for name in names:
        for path in reversed(needs.get(name, [])):
            if path not in order:
                order.append(path)
    return [os.path.join(base, path) for path in order]


def copy_program(tree, path):
    """Copies a program and the libraries that it needs into the guest's folders."""
    shutil.copy(path, os.path.join(tree, "bin"))
    needed = subprocess.run(["ldd", path], capture_output=True, text=True).stdout
    for library in re.findall(r"(/\S+) \(0x", needed):
        to = tree + library
        os.makedirs(os.path.dirname(to), exist_ok=True)
        if not os.path.exists(to):
            shutil.copy(os.path.realpath(library), to)


def initial_files(path, kind_modules, programs, script):
    """Writes the archive that the kernel begins with: these programs, and the script, run once the modules are
    there."""
    folder, _, version = kernel()
    with tempfile.TemporaryDirectory() as tree:
        for name in ["bin", "dev", "proc", "sys", "disk", "tmp", "modules"]:
            os.mkdir(os.path.join(tree, name))
        for program in [shutil.which("busybox"), *programs]:
            copy_program(tree, program)
        loads = []
        for module in modules(folder, version, ALWAYS + kind_modules):
            shutil.copy(module, os.path.join(tree, "modules"))
            loads.append(f"insmod /modules/{os.path.basename(module)}")
        head = [
            "#!/bin/busybox sh",
            "export PATH=/bin",
            "/bin/busybox --install -s /bin",
            "mount -t devtmpfs dev /dev; mount -t proc proc /proc; mount -t sysfs sys /sys",
        ]
        init = os.path.join(tree, "init")
        with open(init, "w") as file:
            file.write("\n".join([*head, *loads, script, "echo guest: done", "poweroff -f", ""]))
        os.chmod(init, 0o755)
        with open(path, "wb") as file:
            names = subprocess.run(["find", "."], cwd=tree, capture_output=True, check=True).stdout
            words = ["busybox", "cpio", "-o", "-H", "newc"]
            subprocess.run(words, cwd=tree, input=names, stdout=file, stderr=subprocess.DEVNULL, check=True)


def start(initial, drives):
    """Starts the machine, without hardware support, so that it is the same everywhere; what it says comes from its
    output."""
    _, image, _ = kernel()
    words = ["qemu-system-x86_64", "-accel", "tcg", "-cpu", "max", "-M", "q35", "-m", "256"]
    words += ["-nodefaults", "-no-user-config"]
    words += ["-display", "none", "-no-reboot", "-serial", "stdio", "-kernel", image, "-initrd", initial]
    words += ["-append", "console=ttyS0 panic=-1 quiet mitigations=off tsc=unstable no_timer_check", *drives]
    return subprocess.Popen(words, stdin=subprocess.DEVNULL, stdout=subprocess.PIPE, stderr=subprocess.STDOUT)


def ended(machine, seconds):
    """What the machine said until it ended."""
    try:
        said, _ = machine.communicate(timeout=seconds)
    except subprocess.TimeoutExpired:
        machine.kill()
        said, _ = machine.communicate()
    said = said.decode(errors="replace").replace("\r", "")
    if "guest: done" not in said:
        raise RuntimeError("the virtual machine didn't end its work:\n" + said[-3000:])
    return said
