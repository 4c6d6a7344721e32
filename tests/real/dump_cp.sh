#!/usr/bin/env bash
# Compares what `f2tools IMAGE dump --cp` prints of images that the real mkfs.f2fs and sload.f2fs made with the numbers
# in their bytes, also where checkpoint packs are destroyed.
source "$(dirname "$0")/tools.bash"
need mkfs
source "$(dirname "$0")/expect.bash"

FIELDS=65

packs() {
    python3 "$top/scripts/checkpoint_packs.py" "$@"
}

# fresh: the image is as it was made.
fresh() {
    cp --sparse=always "$made" "$tmp/image"
}

# expect_unchanged NAME STATUS TEXT: what `dump --cp` answers to the image, which isn't written.
expect_unchanged() {
    # a write sets the time of its moment
    touch -d @0 "$tmp/image"
    head -c 8M "$tmp/image" >"$tmp/before"
    expect "$@" "$program" "$tmp/image" dump --cp
    [[ $(stat -c %Y "$tmp/image") == 0 ]] || fail "$1: the image was written"
    head -c 8M "$tmp/image" | cmp -s - "$tmp/before" || fail "$1: the image has other bytes"
}

# expect_fields NAME: `dump --cp` has to print all fields of the pack that counts.
expect_fields() {
    local text
    text=$(packs "$tmp/image") || true
    if [[ $(wc -l <<<"$text") != "$FIELDS" ]]; then
        fail "$1: found no $FIELDS fields in the image: ${text:0:200}"
        return
    fi
    expect_unchanged "$1" 0 "$text"
    # the texts are long: say which lines differ
    diff "$tmp/wanted" "$tmp/output" | head -n 8 || true
}

expect_none() {
    expect_unchanged "$1" 20 'refused 5 NoPack'
}

# expect_left NAME: `dump --cp` has to print all fields of the pack that is left, if any.
expect_left() {
    if packs "$tmp/image" >/dev/null; then
        expect_fields "$1"
    else
        expect_none "$1"
    fi
}

# check_packs NAME: everything, on $made.
check_packs() {
    local name=$1 end
    fresh
    expect_fields "$name"
    expect_same "$name" "$tmp/image" "$made"

    for end in head tail; do
        fresh
        packs "$tmp/image" --destroy "$end"
        expect_left "$name: the $end destroyed"
        # where it was the only valid pack, there is no other to destroy
        packs "$tmp/image" --destroy "$end" >/dev/null || true
        expect_none "$name: the $end of both packs destroyed"
    done

    fresh
    if packs "$tmp/image" --raise-other; then
        expect_fields "$name: the other pack with a higher version"
    else
        echo "skipped: $name: the other pack with a higher version: it isn't valid"
    fi

    # many fields of a real image are zero or the same
    fresh
    packs "$tmp/image" --mark
    expect_fields "$name: fields that differ"
}

# lay_tree: the files that sload.f2fs puts in an image.
lay_tree() {
    mkdir -p "$tmp/tree/folder/deeper" "$tmp/tree/empty"
    : >"$tmp/tree/nothing"
    echo short >"$tmp/tree/folder/short"
    head -c 5000 /dev/urandom >"$tmp/tree/folder/deeper/two blocks"
    head -c 300000 /dev/urandom >"$tmp/tree/folder/deeper/many blocks"
}

# check_inodes NAME FEATURE: each file and folder of the tree has to be counted as one inode.
check_inodes() {
    local wanted found
    wanted=$(($(find "$tmp/tree" -printf . | wc -c) + ($2 & 0x200 ? 1 : 0)))
    found=$("$program" "$made" dump --cp | sed -n 's/^valid_inode_count //p') || true
    [[ $found == "$wanted" ]] || fail "$1: valid_inode_count '$found', and not $wanted"
}

# check SIZE OPTION..: everything, on an image of this size that mkfs.f2fs makes with these options.
check() {
    local name="$*" size=$1
    shift
    make_image "$name" "$size" "$@" || return 0
    check_packs "$name: fresh"

    if ((loads)); then
        if ! sload.f2fs -f "$tmp/tree" "$made" </dev/null >"$tmp/sload" 2>&1; then
            fail "$name: sload.f2fs ended badly: $(tail -n 3 "$tmp/sload")"
            return
        fi
        check_inodes "$name: loaded" "$feature"
        check_packs "$name: loaded"
    fi
}

loads=1
if ! command -v sload.f2fs >/dev/null; then
    echo "skipped: images with files: sload.f2fs is not installed"
    loads=0
fi
lay_tree
for size in 64M 1G; do
    check "$size"
    check "$size" -O lost_found,sb_checksum
done
finish
