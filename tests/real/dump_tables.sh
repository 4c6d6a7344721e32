#!/usr/bin/env bash
# Compares what `f2tools IMAGE dump -n`, `dump -s` and `dump --block` print of images that the real mkfs.f2fs,
# sload.f2fs and resize.f2fs made with what a small script and the real dump.f2fs read from their bytes.
source "$(dirname "$0")/tools.bash"
need mkfs sload resize dump
source "$(dirname "$0")/expect.bash"

image=$tmp/image

tables() {
    python3 "$top/scripts/image_tables.py" "$@"
}

# read_tables: leaves the tables of the image in $tmp/nodes and $tmp/segments, and says in ${figure[..]} how many
# numbers, moved blocks and records they have.
read_tables() {
    local name number
    tables "$image" --read "$tmp"
    declare -gA figure=()
    while read -r name number; do
        figure[$name]=$number
    done <"$tmp/figures"
}

# check_blocks NAME: the superblock copies, a checkpoint, the first block of each later area, and the last block.
check_blocks() {
    local name=$1 blocks=${figure[blocks]} sit nat ssa main address text
    read -r sit nat ssa main < <(od -A n -t u4 -j $((1024 + 80)) -N 16 "$image")
    for address in 0 1 512 "$sit" "$nat" "$ssa" "$main" $((blocks - 1)); do
        text=$(dd if="$image" bs=4K skip="$address" count=1 status=none | od -A x -v -t x1 |
            sed -nE '/^000... /{ s/^000(...)/\1:/; s/ //g; s/:/: /p }')
        expect "$name: --block $address" 0 "$text" "$program" "$image" dump --block "$address"
    done
}

# check_dumps NAME: everything that the script can say, on a copy of $made.
check_dumps() {
    local name=$1
    take_image
    read_tables
    # a block of the tables has 455 nodes or 55 segments
    check_ranges "$name" "${figure[nodes]}" "$tmp/nodes" -n '0~2' '3~3' '3~-1' '454~455' '0x1C6~1400'
    check_ranges "$name" "${figure[segments]}" "$tmp/segments" -s '0~0' '3~-1' '54~55' '50~0x6f'
    check_blocks "$name"
    check_ends "$name" -n "${figure[nodes]}"
    check_ends "$name" -s "${figure[segments]}"
    expect_outside "$name" --block "${figure[blocks]}" "${figure[blocks]}"
    expect_outside "$name" --block 4294967296 4294967296
    expect_unwritten "$name"
}

# read_real_tables NAME: leaves what dump.f2fs reads in $tmp/real/nodes, as `nid ino address`, and $tmp/real/segments,
# as `segno type count map`. It prints no versions of nodes, no times of segments, and no maps without valid blocks. Of
# several records for one segment it would take the last, where the program takes the first: no image here has any.
read_real_tables() {
    mkdir -p "$tmp/real"
    if ! (cd "$tmp/real" && dump.f2fs -n '0~-1' "$made" && dump.f2fs -s '0~-1' "$made") </dev/null >"$tmp/log" 2>&1; then
        fail "$1: dump.f2fs ended badly: $(tail -n 3 "$tmp/log")"
        return
    fi
    awk -F '[:\t]' '{ print $2 + 0, $4 + 0, $8 + 0 }' "$tmp/real/dump_nat" >"$tmp/real/nodes"
    awk -F '[:\t]' -v empty="$(printf '%0128d' 0)" '
        /^segno:/ {
            start = $2 + 0 " " $6 + 0 " " $4 + 0
            map = ""
            if ($4 == 0) print start, empty
        }
        /^  [0-9a-f]/ {
            gsub(/ /, "")
            map = map $0
            if (length(map) == 128) print start, map
        }
    ' "$tmp/real/dump_sit" >"$tmp/real/segments"
}

# check NAME: everything, on $made.
check() {
    check_dumps "$1"
    read_real_tables "$1"
    expect_real "$1" -n 1-3 "$tmp/real/nodes"
    expect_real "$1" -s 1-3,5 "$tmp/real/segments"
}

# check_scattered NAME: everything, on $made with tables that the real tools leave to the kernel to make.
check_scattered() {
    tables "$made" --scatter
    check "$1"
    ((figure[nodes_moved] && figure[segments_moved] && figure[nodes_records] == 38 && figure[segments_records] == 6)) ||
        fail "$1: too few moved blocks or records"
    expect "$1: a cut text" 9 '' output_cut "$program" "$image" dump -n '0~-1'
}

# expect_count NAME FIELD NUMBER: this field of the checkpoint has this number.
expect_count() {
    local found
    found=$("$program" "$image" dump --cp | sed -n "s/^$2 //p") || true
    [[ $found == "$3" ]] || fail "$1: $2 is '$found', and the dumps have $3"
}

# check_loaded NAME: everything, on $made with the files that it has.
check_loaded() {
    check "$1"
    expect_count "$1" valid_node_count "$(wc -l <"$tmp/nodes")"
    expect_count "$1" valid_block_count "$(awk '{ sum += $3 } END { print sum }' "$tmp/segments")"
}

# put_noise FIRST COUNT: writes noise over blocks of $made.
put_noise() {
    dd if=/dev/urandom of="$made" bs=4K seek="$1" count="$2" conv=notrunc iflag=fullblock status=none
}

check_small() {
    local sit nat
    make_image 'fresh' 256M || return 0
    check_loaded 'fresh'
    ((figure[nodes_records] && figure[segments_records])) || echo "skipped: fresh: journals: mkfs.f2fs leaves them empty"
    cp --sparse=always "$made" "$tmp/kept"
    check_scattered 'fresh, scattered'
    mv "$tmp/kept" "$made"

    run_real 'loaded' sload.f2fs -f "$tmp/tree" || return 0
    check_loaded 'loaded'
    read -r sit nat < <(od -A n -t u4 -j $((1024 + 80)) -N 8 "$made")
    put_noise "$sit" 64
    put_noise "$nat" 64
    check_dumps 'noise in both tables'
}

check_large() {
    make_image 'loaded twice' 256M -O lost_found,sb_checksum || return 0
    run_real 'loaded' sload.f2fs -f "$tmp/tree" || return 0
    run_real 'loaded twice' sload.f2fs -f "$tmp/more" || return 0
    # from here on, the node address table has more than 512 blocks
    truncate -s 1G "$made"
    run_real 'resized' resize.f2fs || return 0
    # the file may go on behind the image
    truncate -s +1M "$made"
    put_noise $((262144 - 1)) 1
    check_loaded 'resized'
    check_scattered 'resized, scattered'
}

python3 "$top/scripts/file_tree.py" "$tmp/tree" 2000
python3 "$top/scripts/file_tree.py" "$tmp/more/more" 100
check_small
check_large
finish
