#!/usr/bin/env bash
# Compares what `f2tools IMAGE dump -i`, `dump --cat` and `dump -a` print of images that the real mkfs.f2fs and sload.f2fs
# made with the files that were loaded, and with what small scripts and the real dump.f2fs read from their bytes.
source "$(dirname "$0")/tools.bash"
need mkfs sload dump
source "$(dirname "$0")/expect.bash"

image=$tmp/image

summaries() {
    python3 "$top/scripts/image_summaries.py" "$@"
}

# lay_tree: the files that sload.f2fs puts in an image. It leaves less than 3488 bytes in the inode; of a longer file the inode
# names 873 blocks, and each further node 1018.
lay_tree() {
    local folder=$tmp/tree/größer/空 size length
    local sizes=(1 3000 3487 3488 3489 3688 3689 4095 4096 4097 100000 5000000
        $((873 * 4096)) $((873 * 4096 + 1)) $((1891 * 4096)) $((1891 * 4096 + 1)))
    python3 "$top/scripts/file_tree.py" "$tmp/tree" 200
    mkdir -p "$folder"
    : >"$folder/☃"
    for size in "${sizes[@]}"; do
        head -c "$size" /dev/urandom >"$folder/$size ☃"
    done
    echo 'not UTF-8' >"$folder/"$'\xff\xfe'
    echo 'a long name' >"$folder/$(printf '%0255d' 0)"
    for length in 1 3487 3688 4095; do
        ln -s "$(printf "%0${length}d" 0)" "$folder/to $length ☃" ||
            echo "skipped: a link to $length bytes: the folder for temporary files takes none"
    done
}

# expect_cat NAME INO FILE: the file with this number has the bytes of this one.
expect_cat() {
    expect_file "$1: --cat $2" 0 "$3" "$program" "$image" dump --cat "$2"
}

# expect_long_cat NAME INO FILE: as expect_cat, for a file that is too long to be kept.
expect_long_cat() {
    "$program" "$image" dump --cat "$2" </dev/null 2>"$tmp/errors" |
        python3 "$top/scripts/compare_sparse.py" "$3" >"$tmp/log" 2>&1 ||
        fail "$1: --cat $2: statuses ${PIPESTATUS[*]}: $(<"$tmp/log")"
}

# expect_absent NAME OPTION INO: there is no such node.
expect_absent() {
    expect "$1: $2 $3" 20 "refused 15 NoSuchNode $3" "$program" "$image" dump "$2" "$3"
}

# check_inodes NAME: the fields and addresses of each inode, and numbers without one.
check_inodes() {
    local name=$1 file ino mode
    rm -rf "$tmp/inodes"
    python3 "$top/scripts/image_files.py" "$image" "$tmp"
    for file in "$tmp/inodes"/*; do
        ino=${file##*/}
        expect_file "$name: -i $ino" 0 "$file" "$program" "$image" dump -i "$ino"
        read -r _ mode <"$file"
        # only regular files and links have bytes
        ((mode >> 12 == 8 || mode >> 12 == 10)) || expect_absent "$name" --cat "$ino"
    done
    while read -r ino; do
        expect_absent "$name" -i "$ino"
        expect_absent "$name" --cat "$ino"
    done <"$tmp/absent"
    expect_file "$name: -i 0x3" 0 "$tmp/inodes/3" "$program" "$image" dump -i 0x3
}

# check_tree NAME: the bytes of each file of the tree.
check_tree() {
    local name=$1 ino path file
    local -A number=()
    while IFS= read -r -d '' ino && IFS= read -r -d '' path; do
        number[$path]=$ino
    done <"$tmp/paths"
    while IFS= read -r -d '' path; do
        file=$tmp/tree/$path
        if [[ -z ${number[$path]:-} ]]; then
            fail "$name: no file '$path'"
            continue
        fi
        if [[ -L $file ]]; then
            readlink -n "$file" >"$tmp/target"
            file=$tmp/target
        fi
        expect_cat "$name: $path" "${number[$path]}" "$file"
    done < <(find "$tmp/tree" ! -type d -printf '%P\0')
}

# check_added NAME: the bytes of each file that was added to the image.
check_added() {
    local file
    for file in "$tmp/added"/*; do
        if (($(stat -c %s "$file") > 1 << 30)); then
            expect_long_cat "$1" "${file##*/}" "$file"
            expect "$1: a cut file" 9 '' output_cut "$program" "$image" dump --cat "${file##*/}"
        else
            expect_cat "$1" "${file##*/}" "$file"
        fi
    done
}

# read_real_summaries NAME: leaves what dump.f2fs reads in $tmp/real/summaries, as `segno block nid`: it prints no versions
# and no places.
read_real_summaries() {
    mkdir -p "$tmp/real"
    if ! (cd "$tmp/real" && dump.f2fs -a '0~-1' "$made") </dev/null >"$tmp/log" 2>&1; then
        fail "$1: dump.f2fs ended badly: $(tail -n 3 "$tmp/log")"
        return
    fi
    # as `segno: a, Data`, and then ten times `[  0:     1f]` in a line
    tr '[]:,' ' ' <"$tmp/real/dump_ssa" | awk '
        function value(digits, place, number) {
            for (place = 1; place <= length(digits); place++)
                number = 16 * number + index("123456789abcdef", substr(digits, place, 1))
            return number
        }
        /^segno/ { segment = value($2) }
        /^ / { for (place = 1; place < NF; place += 2) printf "%d %d %.0f\n", segment, $place, value($(place + 1)) }
    ' >"$tmp/real/summaries"
}

# check_summaries NAME: the summaries of all main segments of $made.
check_summaries() {
    local name=$1 segments
    take_image
    read -r segments < <(od -A n -t u4 -j $((1024 + 68)) -N 4 "$image")
    summaries "$image" >"$tmp/summaries"
    check_ranges "$name" "$segments" "$tmp/summaries" -a '0~0' '3~0xa'
    check_ends "$name" -a "$segments"
    expect_unwritten "$name"
    read_real_summaries "$name"
    expect_real "$name" -a 1-3 "$tmp/real/summaries"
}

# check_scattered NAME: the summaries of $made with ones that all differ, and where its pack lacks some.
check_scattered() {
    summaries "$made" --scatter
    check_summaries "$1, scattered"
    # as a kernel leaves a pack that goes on writing
    summaries "$made" --drop-node-summaries
    check_summaries "$1, without summaries of the node logs"
}

check_fresh() {
    # mkfs.f2fs writes a compact pack
    make_image 'fresh' 64M || return 0
    summaries "$made" --lengthen
    check_scattered 'fresh'
}

check_loaded() {
    make_image 'loaded' 128M || return 0
    run_real 'loaded' sload.f2fs -f "$tmp/tree" || return 0
    mkdir "$tmp/added"
    python3 "$top/scripts/added_files.py" "$made" "$tmp/added"
    take_image
    check_inodes 'loaded'
    check_tree 'loaded'
    check_added 'added'
    expect_unwritten 'loaded'
    check_summaries 'loaded'
    check_scattered 'loaded'
}

lay_tree
check_fresh
check_loaded
finish
