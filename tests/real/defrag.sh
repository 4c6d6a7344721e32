#!/usr/bin/env bash
# Empties each main segment, and some other ranges, of an image that the real F2FS tools made and loaded by `f2tools IMAGE defrag`:
# it prints what a small script counts, the range is empty, `fsck` and the real fsck.f2fs find nothing wrong, and each file keeps its
# bytes. So it does where defrag is ended at a write, where a write fails, and where writes are lost before a sync.
source "$(dirname "$0")/tools.bash"
need mkfs sload fsck
source "$(dirname "$0")/expect.bash"

image=$tmp/image
stops=20

# lay_tree: files of all sizes, links and folders, and some at the borders of what an inode and its nodes hold.
lay_tree() {
    local size
    python3 "$top/scripts/file_tree.py" "$tmp/tree" 500
    mkdir "$tmp/tree/borders"
    for size in 3487 3488 3689 4095 4097 $((873 * 4096)) $((873 * 4096 + 1)) $((1891 * 4096 + 1)); do
        head -c "$size" /dev/urandom >"$tmp/tree/borders/$size"
    done
    # in its inode, and in a block; of a link of 3488 to 3687 bytes sload.f2fs counts the blocks wrongly
    for size in 3487 4095; do
        ln -s "$(printf "%0${size}d" 0)" "$tmp/tree/borders/link $size" ||
            echo "skipped: a link to $size bytes: the folder for temporary files takes none"
    done
    python3 "$top/scripts/file_digests.py" --folder "$tmp/tree" >"$tmp/digests"
}

# check_files NAME: each file of the image is as it was loaded.
check_files() {
    python3 "$top/scripts/file_digests.py" --image "$program" "$image" >"$tmp/found" || fail "$1: the files can't be read"
    diff "$tmp/digests" "$tmp/found" >"$tmp/difference" || fail "$1: other files: $(head -n 4 "$tmp/difference")"
}

# check_sound NAME: nothing is wrong with the image. fsck.f2fs, which would mend it, reads a copy, and leaves that as it is.
check_sound() {
    expect "$1: fsck" 0 'done' "$program" "$image" fsck
    cp --sparse=always "$image" "$tmp/copy"
    if ! fsck.f2fs "$tmp/copy" </dev/null >"$tmp/log" 2>&1 || grep -q 'Fail' "$tmp/log"; then
        fail "$1: fsck.f2fs: $(grep -E 'ASSERT|FIX|Fail' "$tmp/log" | head -n 5)"
    fi
    expect_same "$1: fsck.f2fs" "$image" "$tmp/copy"
}

# check_empty NAME START BLOCKS: no block of the range is valid.
check_empty() {
    python3 "$top/scripts/range_moves.py" "$image" -s "$2" -l "$3" -t $((main_start)) >"$tmp/left" 2>&1 ||
        python3 "$top/scripts/range_moves.py" "$image" -s "$2" -l "$3" -t $((main_end)) >"$tmp/left" 2>&1 || true
    [[ $(head -n 1 "$tmp/left") == 'moved 0 blocks in 0 batches' ]] || fail "$1: blocks are left: $(beginning "$tmp/left")"
}

# move NAME WORD..: moves what the words say, and compares the answer with what the script counts. False where it was refused.
move() {
    local name=$1 status=0
    shift
    python3 "$top/scripts/range_moves.py" "$image" "$@" >"$tmp/counted" || status=$?
    expect_file "$name: defrag $*" "$status" "$tmp/counted" "$program" "$image" defrag "$@"
    return "$((status != 0))"
}

# read_layout: where the main area of $made begins and ends.
read_layout() {
    read -r segments < <(od -A n -t u4 -j $((1024 + 68)) -N 4 "$made")
    read -r main_start < <(od -A n -t u4 -j $((1024 + 92)) -N 4 "$made")
    main_end=$((main_start + 512 * segments))
}

# empty_segment NUMBER: to the right, to the left or anywhere, by turns; the next way where there is no room for one.
empty_segment() {
    local segment=$1 start=$((main_start + 512 * $1)) turn words
    for turn in 0 1 2; do
        case $(((segment + turn) % 3)) in
        0) words=(-s "$start" -l 512) ;;
        1) words=(-s "$start" -l 512 -i) ;;
        2) words=(-s "$start" -l 512 -t "$main_start") ;;
        esac
        cp --sparse=always "$image" "$tmp/before"
        if move "segment $segment" "${words[@]}"; then
            check_empty "segment $segment" "$start" 512
            check_sound "segment $segment"
            return
        fi
        expect_same "segment $segment, refused" "$image" "$tmp/before"
    done
    fail "segment $segment: no way to empty it"
}

# empty_in_turn: each main segment of the same image.
empty_in_turn() {
    local segment
    take_image
    for ((segment = 0; segment < segments; segment++)); do
        empty_segment "$segment"
    done
    check_files 'all segments'
}

# check_range START BLOCKS WORD..: a range of a fresh copy of $made.
check_range() {
    local name="range $*" start=$1 blocks=$2
    shift 2
    take_image
    if move "$name" -s "$start" -l "$blocks" "$@"; then
        check_empty "$name" "$start" "$blocks"
        check_sound "$name"
        check_files "$name"
    else
        expect_unwritten "$name"
    fi
}

# check_ranges_of_made: parts of segments, several batches, and ranges without room.
check_ranges_of_made() {
    local middle=$((main_start + 512 * (segments / 2)))
    check_range "$main_start" 1
    check_range $((main_start + 700)) 4000
    check_range $((main_start + 511)) 2 -t "$middle"
    check_range $((main_start + 512 * 3 + 100)) 10 -t "$middle" -i
    # more than 4096 blocks take several batches
    check_range "$main_start" $((middle - main_start))
    check_range $((main_start + 512)) $((middle - main_start - 512)) -t "$main_end" -i
    check_range "$main_start" $((main_end - main_start - 1024))
    check_range "$main_start" 18446744073709551615
    check_range $((main_end - 512)) 512
    check_range "$main_end" 1
}

# traced OPTION..: moves half of the image under strace with these options; the messages of the shell are none of the program's.
traced() {
    { strace -f -e trace=pwrite64,fsync "$@" "$program" "$image" defrag -s "$main_start" -l "$half" </dev/null >"$tmp/output"; } 2>"$tmp/errors"
}

# check_stopped NAME: the image is sound, and what was begun can be done.
check_stopped() {
    expect "$1: fsck" 0 'done' "$program" "$image" fsck
    check_files "$1"
    move "$1, once more" -s "$main_start" -l "$half" || fail "$1: no room once more"
    check_sound "$1, once more"
}

# places: which writes of the trace are to be stopped: those around each sync, and others spread between.
places() {
    awk -v wanted="$stops" '
        /pwrite64\(/ { writes++ }
        /fsync\(/ { chosen[writes]; chosen[writes + 1] }
        END {
            for (count = 0; count <= writes; count++) if (count in chosen) if (count > 0) found++
            for (step = 1; found < wanted; step++) {
                place = int(step * 0.381966 * writes) % writes + 1
                if (!(place in chosen)) { chosen[place]; found++ }
            }
            for (place in chosen) if (place >= 1 && place <= writes) print place
        }' "$1" | sort -n
}

# check_killed NAME OPTION..: defrag is killed, at a write or at a sync.
check_killed() {
    local name=$1 got=0
    shift
    take_image
    traced -o /dev/null "$@" || got=$?
    ((got == 137)) || fail "$name: status $got"
    check_stopped "$name"
}

# check_faulty NAME OPTION..: a write or a sync fails.
check_faulty() {
    local name=$1 got=0
    shift
    take_image
    traced -o /dev/null "$@" || got=$?
    [[ $got == 8 && $(<"$tmp/output") == 'disk fault' ]] || fail "$name: status $got, '$(beginning "$tmp/output")'"
    check_stopped "$name"
}

# check_stops: by turns, defrag is killed at a write, or a write fails.
check_stops() {
    local place turn=0
    while read -r place; do
        if ((turn++ % 2)); then
            check_killed "killed at write $place" -e inject=pwrite64:signal=KILL:when="$place"
        else
            check_faulty "write $place fails" -e inject=pwrite64:error=EIO:when="$place"
        fi
    done < <(places "$tmp/trace")
}

# check_syncs: each sync fails; and writes before the second one are lost, in several patterns, when defrag is killed there.
check_syncs() {
    local sync lost
    for ((sync = 1; sync <= $(grep -c 'fsync(' "$tmp/trace"); sync++)); do
        check_faulty "sync $sync fails" -e inject=fsync:error=EIO:when="$sync"
    done
    # every write but the first, which is synced by itself, each second one, or some
    for lost in 2+ 2+2 3+2 4+7; do
        check_killed "writes $lost lost" -e inject=pwrite64:retval=4096:when="$lost" -e inject=fsync:signal=KILL:when=2
    done
}

# can_trace: whether strace is there, and may trace.
can_trace() {
    command -v strace >/dev/null && strace -o /dev/null true 2>/dev/null
}

# stop_at_writes: ends a defrag of two batches.
stop_at_writes() {
    half=$((512 * (segments / 2)))
    if ! can_trace; then
        echo 'skipped: ends at a write: strace is not installed, or may not trace'
        return
    fi
    take_image
    traced -o "$tmp/trace" || fail "traced: $(beginning "$tmp/errors")"
    grep -q 'fsync(' "$tmp/trace" || fail 'traced: no sync'
    check_stops
    check_syncs
}

lay_tree
if make_image 'loaded' 128M && run_real 'loaded' sload.f2fs -f "$tmp/tree"; then
    read_layout
    empty_in_turn
    check_ranges_of_made
    stop_at_writes
fi
finish
