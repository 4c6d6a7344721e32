"""What the benchmarks on full images share: an image of 1 GiB that the real mkfs.f2fs and sload.f2fs made, with 20,000 files or
others, the comparison of two programs, and the time for a file as files get more.
"""
import os
import shutil
import subprocess
import sys
import tempfile
from contextlib import contextmanager

from measuring import PROGRAM, TOP, count_calls, make_image, mean_start, medians, need_program, print_row, start

sys.path.insert(0, f"{TOP}/scripts")
from file_tree import lay_out

os.environ["PATH"] += ":/usr/sbin:/sbin"
NEEDED = ("mkfs.f2fs", "sload.f2fs", "dump.f2fs")
BLOCKS = 262_144
FILES = 20_000
SAMPLES = 11
STARTS = 3  # of each program, in each sample
COUNTS = 5_000, 20_000, 80_000
SMALL = 3_000  # bytes: such a file stands in its inode, so that 80,000 of them find room


def make_full_image(image, tree, add, files=FILES):
    make_image(image, BLOCKS)
    lay_out(tree, files)
    add(tree)
    subprocess.run(["sload.f2fs", "-f", tree, image], check=True, stdin=subprocess.DEVNULL, stdout=subprocess.DEVNULL)
    shutil.rmtree(tree)


@contextmanager
def full_image(add=lambda tree: None, files=FILES):
    """The image, of so many files and those that `add(tree)` adds, in a folder that becomes the current one."""
    need_program()
    if any(shutil.which(tool) is None for tool in NEEDED):
        print(f"skipped: {', '.join(NEEDED)} are not all installed")
        sys.exit()
    with tempfile.TemporaryDirectory(prefix="f2tools.") as folder:
        folder = os.path.realpath(folder)
        os.chdir(folder)
        image = f"{folder}/image"
        try:
            make_full_image(image, f"{folder}/tree", add, files)
        except (OSError, subprocess.CalledProcessError) as why:
            sys.exit(f"no image in {folder} ({why}): set TMPDIR to a folder that takes one")
        yield image


def of_dump(option, image):
    """The comparison of a dump of all numbers with the real one, which writes to a file in the current folder."""
    ours = PROGRAM, image, "dump", option, "0~-1"
    return f"dump {option} / dump.f2fs", ours, (shutil.which("dump.f2fs"), option, "0~-1", image), "below 0.5"


def peak_memory(words):
    """The peak memory of a start, in MiB. Python's own would be counted in that of what it starts itself."""
    start([shutil.which("time"), "-f", "%M", "-o", "log", *words], 0)
    with open("log") as file:
        return int(file.read()) / 1024


def compare(image, comparisons, memory=16):
    """Prints what is measured of comparisons: a name, the words of f2tools and of the other program, and the ratio wanted. The
    memory that is wanted is in MiB.
    """
    print(f"{os.cpu_count()} cores; medians of {SAMPLES} samples of {STARTS} starts each")
    print()
    print_row("time of a start", "f2tools", "the other", "ratio", "wanted")
    cases = list(dict.fromkeys((words,) for _, *sides, _ in comparisons for words in sides))
    times = medians(cases, lambda words: mean_start(words, STARTS), SAMPLES)
    for name, *sides, wanted in comparisons:
        ours, theirs = (times[words,] for words in sides)
        print_row(name, f"{ours:.3f} ms", f"{theirs:.3f} ms", f"{ours / theirs:.4f}", wanted)

    print()
    if shutil.which("time") is None:
        print("peak memory is not measured: time is not installed")
    else:
        print_row("peak memory", "f2tools", "the other", "", "wanted")
        for name, *sides, _ in comparisons:
            print_row(name, *(f"{peak_memory(words):.1f} MiB" for words in sides), "", f"below {memory} MiB")

    print()
    if shutil.which("strace") is None:
        print("blocks read and written are not counted: strace is not installed")
        return
    print_row("calls of f2tools", "blocks read", "blocks written", "syncs")
    for words in dict.fromkeys(ours for _, ours, *_ in comparisons):
        counts = count_calls(words, 0, image, "log")
        print_row(" ".join(words[2:]), *([f"{count:g}" for count in counts] if counts else ["strace failed"]))


def small_files(count):
    def add(tree):
        for number in range(count):
            folder = f"{tree}/{number // 500}"
            os.makedirs(folder, exist_ok=True)
            with open(f"{folder}/{number}", "wb") as file:
                file.write(bytes([number % 251]) * SMALL)

    return add


def measure_growth(what, times_on):
    """Prints the time for a file on images with more and more small ones, where `times_on(image)` has the milliseconds by name."""
    print(f"# growth: {what}; the time for a file")
    print_row("small files", *COUNTS, "80,000 / 5,000", "wanted")
    times = {}
    for count in COUNTS:
        with full_image(small_files(count), 0) as image:
            for name, time in times_on(image).items():
                times.setdefault(name, []).append(time / count * 1000)
    for name, each in times.items():
        print_row(name, *(f"{time:.3f} us" for time in each), f"{each[-1] / each[0]:.4f}", "at most 1.3")
