#!/usr/bin/env bash
# Makes images by `f2tools IMAGE mkfs`, and tries the real F2FS tools on them: fsck.f2fs finds nothing wrong, dump.f2fs reads them,
# and sload.f2fs fills them with files whose bytes `dump --cat` gives back.
source "$(dirname "$0")/tools.bash"
need fsck dump sload
source "$(dirname "$0")/expect.bash"

image=$tmp/image
made=$tmp/made
label='größer ☃ 日本語 𝄞'
uuid=01234567-89ab-CDEF-0123-456789abcdef

# wanted_sizes BLOCKS: the blocks and the main segments of a new image.
wanted_sizes() {
    python3 - "$1" <<'PYTHON'
import sys

def up(number, by):
    return -(-number // by)

blocks = int(sys.argv[1])
rest = blocks // 512 - 1
sit = 2 * up(up(rest, 55), 512)
nat = 2 * min(up(up((rest - 2 - sit) * 512, 455), 512), 60 - sit // 2)
ssa = up(rest - 2 - sit - nat, 512)
print(f"blocks {blocks} main {rest - 2 - sit - nat - ssa}")
PYTHON
}

# bytes_of OFFSET COUNT: bytes of the image in hexadecimal.
bytes_of() {
    od -A n -v -t x1 -j "$1" -N "$2" "$made" | tr -d ' \n'
}

# check_superblock NAME FEATURES: label, uuid and features in both copies.
check_superblock() {
    local name=$1 features=$2 units copy
    units=$(printf '%s' "$label" | iconv -f UTF-8 -t UTF-16LE | od -A n -v -t x1 | tr -d ' \n')
    for copy in 1024 5120; do
        [[ $(bytes_of $((copy + 108)) 16) == 0123456789abcdef0123456789abcdef ]] || fail "$name: copy at $copy: another uuid"
        [[ $(bytes_of $((copy + 124)) $((${#units} / 2 + 2))) == "${units}0000" ]] || fail "$name: copy at $copy: another label"
        [[ $((16#$(bytes_of $((copy + 2181)) 1))) == $((features >> 8)) ]] || fail "$name: copy at $copy: other features"
    done
}

# check_files NAME TREE: the bytes of each file of the tree.
check_files() {
    local name=$1 tree=$2 ino path file
    rm -rf "$tmp/inodes"
    python3 "$top/scripts/image_files.py" "$made" "$tmp"
    local -A number=()
    while IFS= read -r -d '' ino && IFS= read -r -d '' path; do
        number[$path]=$ino
    done <"$tmp/paths"
    while IFS= read -r -d '' path; do
        file=$tree/$path
        if [[ -z ${number[$path]:-} ]]; then
            fail "$name: no file '$path'"
            continue
        fi
        expect_file "$name: --cat $path" 0 "$file" "$program" "$made" dump --cat "${number[$path]}"
    done < <(find "$tree" -type f -printf '%P\0')
}

# check_image NAME SIZE FEATURES TREE OPTION..: an image of this size with these options, which is then loaded with this tree.
check_image() {
    local name=$1 size=$2 features=$3 tree=$4
    shift 4
    rm -f "$made"
    truncate -s "$size" "$made"
    local blocks=$(($(stat -c %s "$made") / 4096))
    expect "$name: mkfs" 0 "$(wanted_sizes "$blocks")"$'\n'done "$program" "$made" mkfs -l "$label" -U "$uuid" "$@"
    check_superblock "$name" "$features"
    run_real "$name" fsck.f2fs || return 0
    run_real "$name" dump.f2fs -i 3 || return 0
    run_real "$name" sload.f2fs -f "$tree" || return 0
    run_real "$name, loaded" fsck.f2fs || return 0
    check_files "$name, loaded" "$tree"
}

check_refusals() {
    rm -f "$made"
    truncate -s 64M "$made"
    expect 'too small' 20 'refused 12 TooSmall 23 24' "$program" "$made" mkfs 131071
    expect 'device too small' 20 'refused 11 DeviceTooSmall 16385 16384' "$program" "$made" mkfs 131080
    expect 'first' 0 $'blocks 16384 main 24\ndone' "$program" "$made" mkfs
    expect 'exists' 20 'refused 16 Exists' "$program" "$made" mkfs
    expect 'forced' 0 $'blocks 16384 main 24\ndone' "$program" "$made" mkfs -f
    run_real 'forced' fsck.f2fs
}

python3 "$top/scripts/file_tree.py" "$tmp/tree" 500
# sload.f2fs finds no room for the one large file in 64 MiB, whoever made the image
cp -a "$tmp/tree" "$tmp/small"
rm "$tmp/small/file 0"
for size in 64M 128M 1G 64G; do
    tree=$tmp/tree
    [[ $size != 64M ]] || tree=$tmp/small
    check_image "$size" "$size" 0 "$tree"
    check_image "$size, lost_found" "$size" 0x200 "$tree" -O lost_found
    check_image "$size, sb_checksum" "$size" 0x800 "$tree" -O sb_checksum
    check_image "$size, both" "$size" 0xA00 "$tree" -O lost_found,sb_checksum
done
check_refusals
finish
