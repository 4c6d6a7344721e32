#!/usr/bin/env bash
# Makes a small image, reads its checkpoint and its root, and repairs its superblock after the first copy was destroyed.
set -euo pipefail

top=$(cd "$(dirname "$0")/.." && pwd)
program=$(realpath -m "${F2TOOLS:-$top/crates/f2_tools/out/f2_tools}")
tmp=$(mktemp -d "${TMPDIR:-/tmp}/f2tools.XXXXXX")
trap 'rm -rf "$tmp"' EXIT

# run WORD..: runs a job on the image, and leaves its text and status.
run() {
    status=0
    echo "\$ f2tools image $*"
    text=$("$program" "$tmp/image" "$@") || status=$?
}

# show STATUS TEXT WORD..: runs the job, and ends the demo where it does not end so.
show() {
    local wanted=$1 answer=$2
    shift 2
    run "$@"
    printf '%s\n' "$text" "(status $status)"
    if [[ $status != "$wanted" || $text != "$answer" ]]; then
        echo "FAILED: '$answer' with status $wanted was wanted"
        exit 1
    fi
}

# show_first LINES WORD..: runs the job, and shows the first lines of its text; it has to be done.
show_first() {
    local lines=$1
    shift
    run "$@"
    head -n "$lines" <<<"$text"
    echo '...'
    if [[ $status != 0 ]]; then
        echo "FAILED: status $status"
        exit 1
    fi
}

echo "A new image in a sparse file of 64 MiB:"
truncate -s 64M "$tmp/image"
show 0 $'blocks 16384 main 24\ndone' mkfs -l demo -O lost_found
echo "It meets the rules, and this is its tree:"
show 0 'done' fsck
show 0 $'lost+found/\ndone' fsck -t
echo "Its checkpoint, and the inode of its root:"
show_first 6 dump --cp
show_first 9 dump -i 3
echo "The first superblock copy, in block 0, is destroyed:"
dd if=/dev/zero of="$tmp/image" bs=4096 count=1 conv=notrunc status=none
show 1 corrected fsck --super
echo "It was written anew from the second one. Once more:"
show 0 'done' fsck --super
