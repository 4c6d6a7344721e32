#!/usr/bin/env bash
# Gives the program files, words and standard outputs that it cannot use.
source "$(dirname "$0")/expect.bash"

image=$tmp/image
usage='usage: f2tools IMAGE TOOL OPTIONS'
# the jobs that mount the image
readers=('fsck' 'fsck -t' 'dump --cp' 'dump -n 0~-1' 'dump -s 0~-1' 'dump --block 0' 'dump -a 0~-1' 'dump -i 3' 'dump --cat 3')

lay_out() {
    python3 "$top/scripts/superblock_image.py" "$@"
}

# expect_unchanged NAME STATUS TEXT COMMAND..: as expect, and the image keeps its bytes.
expect_unchanged() {
    cp --sparse=always "$image" "$tmp/before"
    expect "$@"
    expect_same "$1" "$image" "$tmp/before"
}

# expect_refusal NAME TEXT [JOB..]: what these jobs, or all, answer to the image, which keeps its bytes.
expect_refusal() {
    local name=$1 text=$2 job
    shift 2
    (($# > 0)) || set -- 'fsck --super' "${readers[@]}"
    cp --sparse=always "$image" "$tmp/before"
    for job; do
        # $job is some words
        # shellcheck disable=SC2086
        expect "$name: $job" 20 "$text" "$program" "$image" $job
    done
    expect_same "$name" "$image" "$tmp/before"
}

check_lengths() {
    lay_out "$tmp/good" 16384
    : >"$image"
    expect_refusal 'an empty file' 'refused 1 NoSuper'
    head -c 2000 "$tmp/good" >"$image"
    expect_refusal 'part of a copy' 'refused 1 NoSuper'
    head -c 4095 "$tmp/good" >"$image"
    expect_refusal 'a byte less than a block' 'refused 1 NoSuper'
    head -c 4096 "$tmp/good" >"$image"
    expect_refusal 'one block' 'refused 4 Truncated 16384 1'
    head -c 5000 "$tmp/good" >"$image"
    expect_refusal 'a block and a part of one' 'refused 4 Truncated 16384 1'
    head -c 8191 "$tmp/good" >"$image"
    expect_refusal 'a byte less than two blocks' 'refused 4 Truncated 16384 1'
    head -c 8192 "$tmp/good" >"$image"
    expect_refusal 'two blocks' 'refused 4 Truncated 16384 2'
    cp --sparse=always "$tmp/good" "$image"
    truncate -s -1 "$image"
    expect_refusal 'a byte less than the image' 'refused 4 Truncated 16384 16383'

    lay_out "$tmp/good" 16384 --zero-first
    head -c 8191 "$tmp/good" >"$image"
    expect_refusal 'the only good copy past the last whole block' 'refused 1 NoSuper'
    cp --sparse=always "$tmp/good" "$image"
    truncate -s -1 "$image"
    expect_refusal 'a byte less than an image with one good copy' 'refused 4 Truncated 16384 16383'
}

check_contents() {
    head -c 100000 /dev/urandom >"$image"
    expect_refusal 'noise' 'refused 1 NoSuper'
    lay_out "$image" 16384 --zero-first --zero-second
    expect_refusal 'both copies all zeros' 'refused 1 NoSuper'
    lay_out "$image" 16384 --feature 1
    expect_refusal 'an unknown feature' 'refused 2 Unsupported 1'
    lay_out "$image" 16384 --feature ffffffff --zero-first
    expect_refusal 'all features, in the second copy alone' 'refused 2 Unsupported 4294964735'
    # both superblock copies are good, and there is no checkpoint
    lay_out "$image" 16384
    expect_refusal 'no checkpoint pack' 'refused 5 NoPack' "${readers[@]}"
    # without a pack, no number is looked at
    expect_refusal 'neither a checkpoint pack nor the number' 'refused 5 NoPack' \
        'dump -n 7~5' 'dump -s 16384~16384' 'dump --block 16384' 'dump -a 7~5' 'dump -i 0' 'dump --cat 4294967295'
    if lay_out "$image" 268435457 >/dev/null 2>&1; then
        truncate -s 8192 "$image"
        expect_refusal 'more than 1 TiB' 'refused 3 TooLarge 268435457'
    else
        echo "skipped: an image of more than 1 TiB: the folder for temporary files takes none"
    fi
}

check_names() {
    local job
    mkdir "$tmp/folder"
    for job in 'fsck --super' "${readers[@]}"; do
        # $job is some words
        # shellcheck disable=SC2086
        {
            expect "$job: a folder" 8 'disk fault' "$program" "$tmp/folder" $job
            # the length of this folder is 0
            expect "$job: the folder /proc" 8 'disk fault' "$program" /proc $job
            expect "$job: a missing file" 8 'disk fault' "$program" "$tmp/missing" $job
            [[ ! -e $tmp/missing ]] || fail "$job: a missing file: it was made"
            expect "$job: a file in a missing folder" 8 'disk fault' "$program" "$tmp/missing/image" $job
            expect "$job: an empty name" 8 'disk fault' "$program" '' $job
        }
    done
}

# Runs a command as a user that file permissions bind.
if [[ $(id -u) == 0 ]]; then
    as_other() { setpriv --reuid=65534 --regid=65534 --clear-groups "$@"; }
else
    as_other() { "$@"; }
fi

# expect_at MODE NAME STATUS TEXT: what `fsck --super` answers such a user to the image with these permissions.
expect_at() {
    local mode=$1
    shift
    cp --sparse=always "$image" "$tmp/before"
    chmod "$mode" "$image"
    expect "$@" as_other "$tmp/f2tools" "$image" fsck --super
    chmod 600 "$image"
    expect_same "$1" "$image" "$tmp/before"
}

check_permissions() {
    # the program and the image have to be within that user's reach
    chmod 755 "$tmp"
    cp "$program" "$tmp/f2tools"
    chmod 755 "$tmp/f2tools"
    echo secret >"$tmp/secret"
    chmod 000 "$tmp/secret"
    if ! as_other test -x "$tmp/f2tools" 2>/dev/null || as_other cat "$tmp/secret" >/dev/null 2>&1; then
        echo "skipped: file permissions: found no user whom they bind and who reaches $tmp"
        return
    fi
    lay_out "$image" 16384
    expect_at 000 'a file without permissions' 8 'disk fault'
    expect_at 222 'a file that may not be read' 8 'disk fault'
    expect_at 444 'a good file that may not be written' 0 'done'
    lay_out "$image" 16384 --zero-first
    expect_at 444 'a file with a bad first copy that may not be written' 8 'disk fault'
    lay_out "$image" 16384 --zero-second
    expect_at 444 'a file with a bad second copy that may not be written' 8 'disk fault'
    lay_out "$image" 16384 --zero-first --zero-second
    expect_at 444 'a file with no good copy that may not be written' 20 'refused 1 NoSuper'
}

output_closed() { "$@" >&-; }
all_closed() { "$@" <&- >&- 2>&-; }
output_full() { "$@" >/dev/full; }
output_unread() {
    python3 -c 'import os, subprocess, sys
reader, writer = os.pipe()
os.close(reader)
sys.exit(subprocess.run(sys.argv[1:], stdout=writer).returncode)' "$@"
}

check_outputs() {
    local output job
    # where standard output is closed, the image itself could be opened in its place
    for output in output_closed all_closed output_full output_unread; do
        lay_out "$image" 16384
        expect_unchanged "$output: done" 9 '' "$output" "$program" "$image" fsck --super
        cp --sparse=always "$image" "$tmp/good"
        lay_out "$image" 16384 --zero-first
        expect "$output: corrected" 9 '' "$output" "$program" "$image" fsck --super
        expect_same "$output: corrected" "$image" "$tmp/good"
        lay_out "$image" 16384 --zero-first --zero-second
        expect_unchanged "$output: refused" 9 '' "$output" "$program" "$image" fsck --super
        lay_out "$image" 16384
        for job in "${readers[@]}"; do
            # shellcheck disable=SC2086
            expect_unchanged "$output: $job" 9 '' "$output" "$program" "$image" $job
        done
        expect_unchanged "$output: usage" 9 '' "$output" "$program" "$image" fsck -x
        expect "$output: disk fault" 9 '' "$output" "$program" "$tmp/missing" fsck --super
        expect "$output: no words" 9 '' "$output" "$program"
    done
}

# expect_usage NAME WORD..
expect_usage() {
    local name=$1
    shift
    expect_unchanged "$name" 16 "$usage" "$program" "$@"
}

check_words() {
    lay_out "$image" 16384 --zero-first
    expect_usage 'no words'
    expect_usage 'an image alone' "$image"
    expect_usage 'two options' "$image" fsck -t --super
    expect_usage 'no tool' "$image" --super
    expect_usage 'the words turned' "$image" --super fsck
    expect_usage 'a word too many' "$image" fsck --super --super
    expect_usage 'an empty word too many' "$image" fsck --super ''
    expect_usage 'a dump without its option' "$image" dump
    expect_usage 'the option of another tool' "$image" dump --super
    expect_usage 'a word too many for a dump' "$image" dump --cp 0
    expect_usage 'an unknown tool' "$image" repair --super
    expect_usage 'an unknown option' "$image" fsck --superb
    expect_usage 'a shorter option' "$image" fsck --sup
    expect_usage 'capitals' "$image" FSCK --SUPER
    expect_usage 'both words in one' "$image" 'fsck --super'
    expect_usage 'empty words' "$image" '' ''
    expect_usage 'unknown words for a missing file' "$tmp/missing" fsck --superb
    expect_usage 'unknown words for a folder' "$tmp" fsck --superb
    expect_usage 'a tool that is not UTF-8' "$image" $'\xff' --super
    expect_usage 'an option that is not UTF-8' "$image" fsck $'--super\xff'
    cp --sparse=always "$image" "$tmp/"$'image\xff'
    expect_usage 'a name that is not UTF-8' "$tmp/"$'image\xff' fsck --super
    expect_same 'a name that is not UTF-8' "$image" "$tmp/"$'image\xff'
}

# Words that are no number and no range of numbers below 2^64.
check_numbers() {
    local option word
    local words=('' ' ' - -1 + 0x 0X5 +5 5. 1e3 ' 5' '5 ' 5x a 18446744073709551616 0x10000000000000000 $'5\xff' ٥
        '~' '3~' '~5' '-1~5' '-1~-1' '3~-2' '3~+5' '3~5~7' 3-5 '3 ~ 5' ' 3~5' '3~5 ' $'3~5\n' a~b '3~5x' '3~0x' '3~0X5'
        '0~18446744073709551616' '18446744073709551616~-1' '3~-18446744073709551615' $'3~5\xff' '3~٥')
    lay_out "$image" 16384 --zero-first
    cp --sparse=always "$image" "$tmp/before"
    for option in -n -s -a --block -i --cat; do
        for word in "${words[@]}"; do
            expect "$option: '$word'" 16 "$usage" "$program" "$image" dump "$option" "$word"
        done
        expect "$option: no number" 16 "$usage" "$program" "$image" dump "$option"
        expect "$option: a word too many" 16 "$usage" "$program" "$image" dump "$option" '3~5' '3~5'
        expect "$option: both words in one" 16 "$usage" "$program" "$image" dump "$option 3"
        expect "$option: the words turned" 16 "$usage" "$program" "$image" dump 3 "$option"
        expect "$option: the option of another tool" 16 "$usage" "$program" "$image" fsck "$option" 3
    done
    for option in -n -s -a; do
        expect "$option: a number" 16 "$usage" "$program" "$image" dump "$option" 3
    done
    for option in --block -i --cat; do
        expect "$option: a range" 16 "$usage" "$program" "$image" dump "$option" '3~5'
    done
    # these numbers have 32 bits
    for option in -i --cat; do
        for word in 4294967296 0x100000003 18446744073709551615; do
            expect "$option: $word" 16 "$usage" "$program" "$image" dump "$option" "$word"
        done
    done
    expect_same 'numbers' "$image" "$tmp/before"
}

check_lengths
check_contents
check_names
check_permissions
check_outputs
check_words
check_numbers
finish
