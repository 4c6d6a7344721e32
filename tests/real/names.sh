#!/usr/bin/env bash
# Compares the hashes that f2_dent gives to names with those in directories that the real mkfs.f2fs and sload.f2fs made.
source "$(dirname "$0")/tools.bash"
need mkfs sload
source "$(dirname "$0")/expect.bash"

measure=$(realpath -m "${F2MEASURE:-$top/crates/f2_measure/out/f2_measure}")
if [[ ! -x $measure ]]; then
    echo "$0: no program at $measure: run make build, or set F2MEASURE"
    exit 1
fi

# lay_names: empty files with names of each length, of bytes that are no ASCII, and of bytes that are no text.
lay_names() {
    mkdir "$tmp/tree"
    python3 - "$tmp/tree" <<'PYTHON'
import os
import random
import sys

names = [
    b"a", b"Z9", b"lost-found", b"README.md", b"0123456789abcde", b"0123456789abcdef", b"0123456789abcdefg",
    b"abcdefghijklmnopqrstuvwxyz012345", b"abcdefghijklmnopqrstuvwxyz0123456", b"x" * 255, b"hello world", b"...",
    b".hidden", b"with\ttab", "äöü".encode(), "日本語".encode(), "漢".encode() * 85, b"\xff\xfe\x80\x81", b"y\x80" * 127,
]
draw = random.Random(7)
others = [byte for byte in range(1, 256) if byte != ord("/")]
for length in range(1, 256):
    names.append(bytes(draw.choices(others, k=length)))
for name in set(names) - {b".", b".."}:
    open(os.path.join(sys.argv[1].encode(), name), "wb").close()
PYTHON
}

check_hashes() {
    local count
    make_image 'names' 64M -O lost_found || return 0
    run_real 'names' sload.f2fs -f "$tmp/tree" || return 0
    python3 "$top/scripts/image_names.py" "$made" >"$tmp/names"
    count=$(find "$tmp/tree" -mindepth 1 -printf . | wc -c)
    # lost+found is one more
    [[ $(wc -l <"$tmp/names") == $((count + 1)) ]] || fail "names: $(wc -l <"$tmp/names") of $((count + 1)) were read"
    cut -d ' ' -f 1 "$tmp/names" >"$tmp/hashes"
    mapfile -t digits < <(cut -d ' ' -f 2 "$tmp/names")
    expect_file 'hashes' 0 "$tmp/hashes" "$measure" hash "${digits[@]}"
}

lay_names
check_hashes
finish
