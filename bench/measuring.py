"""What the benchmarks share: the program, the images, one start of a program, and its calls on an image."""
import os
import re
import statistics
import subprocess
import sys
import time

TOP = os.path.dirname(os.path.dirname(os.path.abspath(__file__)))
PROGRAM = os.path.abspath(os.environ.get("F2TOOLS", f"{TOP}/crates/f2_tools/out/f2_tools"))
BLOCK = 4096
SIZES = {"64 MiB": 16_384, "1 TiB": 268_435_456}  # blocks
CALLS = "pread64,pwrite64,read,write,lseek,fsync,fdatasync"


def need_program():
    if not os.access(PROGRAM, os.X_OK):
        sys.exit(f"no program at {PROGRAM}: run make build, or set F2TOOLS")


def lay_out_images(folder, lay_out):
    """An image of each size, by its name, made by `lay_out(image, blocks)`."""
    images = {size: f"{folder}/image-{blocks}" for size, blocks in SIZES.items()}
    for size, image in images.items():
        try:
            lay_out(image, SIZES[size])
        except (OSError, subprocess.CalledProcessError) as why:
            sys.exit(f"no image of {size} in {folder} ({why}): set TMPDIR to a folder that takes one")
    return images


def make_image(image, blocks):
    with open(image, "wb") as file:
        file.truncate(blocks * BLOCK)
    subprocess.run(["mkfs.f2fs", "-q", "-f", image], check=True, stdout=subprocess.DEVNULL)


def medians(cases, sample, count):
    """The median of `sample(*case)` by case. The order alternates, so that what slows the machine slows all."""
    found = {case: [] for case in cases}
    for number in range(count):
        for case in cases if number % 2 == 0 else cases[::-1]:
            found[case].append(sample(*case))
    return {case: statistics.median(samples) for case, samples in found.items()}


def named_medians(cases, sample, count):
    """The same of cases with names, by name."""
    found = medians(list(cases.values()), sample, count)
    return {name: found[case] for name, case in cases.items()}


def start(words, wanted):
    """Starts a program once, and answers the seconds until its end, which has to be with this status."""
    output = (os.POSIX_SPAWN_OPEN, 1, os.devnull, os.O_WRONLY, 0)
    begun = time.perf_counter()
    process = os.posix_spawn(words[0], words, os.environ, file_actions=[output])
    status = os.waitstatus_to_exitcode(os.waitpid(process, 0)[1])
    seconds = time.perf_counter() - begun
    if status != wanted:
        sys.exit(f"{' '.join(words)} ended with status {status}, and not {wanted}")
    return seconds


def mean_start(words, count):
    """The mean time of so many starts that end well, in milliseconds."""
    return sum(start(words, 0) for _ in range(count)) * 1000 / count


def count_calls(words, wanted, image, log):
    """The blocks read, the blocks written and the syncs of one start, or None where strace can't trace it."""
    traced = ["strace", "-f", "-y", "-o", log, "-e", f"trace={CALLS}", *words]
    ended = subprocess.run(traced, stdout=subprocess.DEVNULL, stderr=subprocess.DEVNULL)
    if ended.returncode != wanted or not os.path.isfile(log):
        return None
    read = written = syncs = 0
    with open(log, errors="replace") as lines:
        for line in lines:
            # only calls on the image, each as `PID pread64(3</tmp/image>, ..) = 4096`
            call = re.search(rf"(\w+)\(\d+<{re.escape(image)}>.* = (\d+)$", line.rstrip())
            if call is None:
                continue
            name, result = call[1], int(call[2])
            read += result * name.startswith(("read", "pread"))
            written += result * name.startswith(("write", "pwrite"))
            syncs += name in ("fsync", "fdatasync")
    os.remove(log)
    return (read / BLOCK, written / BLOCK, syncs) if read else None


def print_row(*words):
    print(f"{words[0]:22}" + "".join(f"{word:>16}" for word in words[1:]))
