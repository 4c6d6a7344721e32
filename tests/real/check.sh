#!/usr/bin/env bash
# Checks images that the real F2FS tools made, loaded, resized and moved: `f2tools IMAGE fsck` finds nothing wrong, and `fsck -t`
# prints the names that were loaded. After damage in one place it names the rule that the image then fails.
source "$(dirname "$0")/tools.bash"
need mkfs sload resize defrag fsck
source "$(dirname "$0")/expect.bash"

image=$tmp/image

# check_sound NAME TREE: nothing is wrong with a copy of $made, and its tree is that of the folder.
check_sound() {
    local name=$1 tree=$2
    take_image
    expect "$name: fsck" 0 'done' "$program" "$image" fsck
    { python3 "$top/scripts/tree_text.py" "$tree" && echo 'done'; } >"$tmp/wanted"
    expect_file "$name: fsck -t" 0 "$tmp/wanted" "$program" "$image" fsck -t
    diff "$tmp/wanted" "$tmp/output" | head -n 8 || true
    expect_unwritten "$name"
}

# check_damage NAME DAMAGE RULE: the least rule that a damaged copy of $made fails.
check_damage() {
    local name=$1 damage=$2 rule=$3 got=0
    take_image
    python3 "$top/scripts/damage_image.py" "$image" "$damage"
    "$program" "$image" fsck </dev/null >"$tmp/output" 2>&1 || got=$?
    if ((got != 4)) || ! grep -q "^E$rule\.[1-9] " "$tmp/output" || ! tail -n 1 "$tmp/output" | grep -qE '^defects [1-9][0-9]*$'; then
        fail "$name: $damage: status $got, and '$(beginning "$tmp/output")', and not rule $rule"
    fi
    if grep -vE "^E$rule\.[1-9] [0-9]+ [0-9]+ [0-9]+ [0-9]+$|^defects " "$tmp/output" >/dev/null; then
        fail "$name: $damage: printed another line"
    fi
}

# grow NAME SIZE: makes the file longer and has the real tool use it.
grow() {
    truncate -s "$2" "$made"
    run_real "$1" resize.f2fs
}

# move NAME: has the real tool empty the first segments of the main area.
move() {
    local main
    main=$(od -A n -t u4 -j $((1024 + 92)) -N 4 "$made")
    run_real "$1" defrag.f2fs -s $((main)) -l 1024
}

mkdir "$tmp/none" "$tmp/found" "$tmp/found/lost+found"
python3 "$top/scripts/file_tree.py" "$tmp/tree" 500
# sload.f2fs finds no room for all of it in 64 MiB
python3 "$top/scripts/file_tree.py" "$tmp/small" 100
rm "$tmp/small/file 0"

for size in 64M 128M 1G 16G; do
    tree=$tmp/tree
    [[ $size != 64M ]] || tree=$tmp/small
    make_image "$size" "$size" -l label || continue
    check_sound "$size" "$tmp/none"
    run_real "$size" sload.f2fs -f "$tree" || continue
    check_sound "$size, loaded" "$tree"
    move "$size, moved" && check_sound "$size, moved" "$tree"
done
if make_image 'lost_found' 128M -O lost_found,sb_checksum; then
    check_sound 'lost_found' "$tmp/found"
fi
if make_image 'grown' 128M && run_real 'grown' sload.f2fs -f "$tmp/tree" && grow 'grown' 512M; then
    check_sound 'grown' "$tmp/tree"
fi
if make_image 'damaged' 256M && run_real 'damaged' sload.f2fs -f "$tmp/tree"; then
    check_sound 'damaged, before' "$tmp/tree"
    while read -r damage rule; do
        check_damage 'damaged' "$damage" "$rule"
    done < <(python3 "$top/scripts/damage_image.py" --list)
fi
finish
