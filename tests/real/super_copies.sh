#!/usr/bin/env bash
# Destroys superblock copies of images that the real mkfs.f2fs made, repairs them with `f2tools IMAGE fsck --super`,
# and has the real fsck.f2fs accept the result.
source "$(dirname "$0")/tools.bash"
need mkfs fsck
source "$(dirname "$0")/expect.bash"

# A copy is 3 KiB long, and begins at this KiB of the file.
start_of=(1 5)

# put_copy FILE COPY: writes standard input over the bytes of this copy.
put_copy() {
    dd of="$1" bs=1K seek="${start_of[$2]}" conv=notrunc iflag=fullblock status=none
}

# copy_of FILE COPY: prints the bytes of this copy.
copy_of() {
    dd if="$1" bs=1K skip="${start_of[$2]}" count=3 status=none
}

# fresh: the image is as it was made.
fresh() {
    cp --sparse=always "$made" "$tmp/image"
}

# destroy HOW COPY
destroy() {
    case $1 in
    zeros) head -c 3072 /dev/zero ;;
    noise) head -c 3072 /dev/urandom ;;
    esac | put_copy "$tmp/image" "$2"
}

# turn_uuid COPY: changes the first byte of this copy's uuid.
turn_uuid() {
    local at=$((start_of[$1] * 1024 + 108)) byte
    byte=$(od -A n -t u1 -j "$at" -N 1 "$tmp/image")
    printf '%b' "$(printf '\\x%02x' $((byte ^ 255)))" |
        dd of="$tmp/image" bs=1 seek="$at" conv=notrunc status=none
}

# expect_accepted NAME: fsck.f2fs has to find no fault in the image.
expect_accepted() {
    fsck.f2fs "$tmp/image" </dev/null >"$tmp/fsck" 2>&1 || fail "$1: fsck.f2fs ended with $?: $(tail -n 3 "$tmp/fsck")"
}

# expect_repair NAME COPY: $tmp/image is repaired to be $tmp/repaired, where this copy has the bytes of the other
# one, and whatever else is as in $tmp/image.
expect_repair() {
    cp --sparse=always "$tmp/image" "$tmp/repaired"
    copy_of "$tmp/image" $((1 - $2)) | put_copy "$tmp/repaired" "$2"
    expect "$1" 1 corrected "$program" "$tmp/image" fsck --super
    expect "$1, once more" 0 'done' "$program" "$tmp/image" fsck --super
    expect_same "$1" "$tmp/image" "$tmp/repaired"
    expect_accepted "$1"
    # fsck.f2fs is content with one good copy: leave it the repaired one alone, in an image that it has not seen
    mv "$tmp/repaired" "$tmp/image"
    destroy zeros $((1 - $2))
    expect_accepted "$1, by the repaired copy alone"
}

# check SIZE HOW OPTION..: everything, on an image of this size that mkfs.f2fs makes with these options.
check() {
    local name="$*" size=$1 how=$2 copy
    shift 2
    make_image "$name" "$size" "$@" || return 0
    # the bytes before a copy are not the program's to write
    for copy in 0 1; do
        printf 'bytes before copy %s' "$copy" | dd of="$made" bs=4K seek="$copy" conv=notrunc status=none
    done

    fresh
    expect "$name: fresh" 0 'done' "$program" "$tmp/image" fsck --super
    expect_same "$name: fresh" "$tmp/image" "$made"

    for copy in 0 1; do
        fresh
        destroy "$how" "$copy"
        expect_repair "$name: copy $copy destroyed" "$copy"
    done

    fresh
    destroy "$how" 0
    destroy "$how" 1
    cp --sparse=always "$tmp/image" "$tmp/before"
    expect "$name: both copies destroyed" 20 'refused 1 NoSuper' "$program" "$tmp/image" fsck --super
    expect_same "$name: both copies destroyed" "$tmp/image" "$tmp/before"

    # With a checksum, the copy whose uuid is turned no longer passes. Without one it disagrees with the other, and
    # copy 0 counts.
    fresh
    turn_uuid 1
    expect_repair "$name: another uuid in copy 1" 1
    fresh
    turn_uuid 0
    expect_repair "$name: another uuid in copy 0" $((feature & 0x800 ? 0 : 1))
}

for how in zeros noise; do
    check 64M "$how"
    check 64M "$how" -O lost_found,sb_checksum
done
check 1G noise
check 1G noise -O lost_found,sb_checksum
finish
