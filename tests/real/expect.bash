# Sourced by the scripts beside it: finds the program, makes a temporary folder and compares answers.
set -euo pipefail

top=$(cd "$(dirname "${BASH_SOURCE[0]}")/../.." && pwd)
program=$(realpath -m "${F2TOOLS:-$top/crates/f2_tools/out/f2_tools}")
if [[ ! -x $program ]]; then
    echo "$0: no program at $program: run make build, or set F2TOOLS"
    exit 1
fi
tmp=$(mktemp -d "${TMPDIR:-/tmp}/f2tools.XXXXXX")
trap 'rm -rf "$tmp"' EXIT

failures=0

fail() {
    echo "FAILED: $1"
    failures=$((failures + 1))
}

# expect NAME STATUS TEXT COMMAND..: the command has to end with this status, print this line or these lines (none
# where TEXT is empty), and write nothing to standard error.
expect() {
    local name=$1 status=$2 text=$3
    shift 3
    printf '%s' "${text:+$text$'\n'}" >"$tmp/wanted"
    expect_file "$name" "$status" "$tmp/wanted" "$@"
}

# expect_file NAME STATUS FILE COMMAND..: as expect, but the command has to print the bytes of this file.
expect_file() {
    local name=$1 status=$2 file=$3 got=0
    shift 3
    "$@" </dev/null >"$tmp/output" 2>"$tmp/errors" || got=$?
    if ((got != status)); then
        fail "$name: status $got, and not $status"
    fi
    if ! cmp -s "$tmp/output" "$file"; then
        fail "$name: printed '$(beginning "$tmp/output")', and not '$(beginning "$file")'"
    fi
    if [[ -s $tmp/errors ]]; then
        fail "$name: wrote '$(beginning "$tmp/errors")' to standard error"
    fi
}

beginning() {
    head -c 200 "$1" | cat -v
}

# expect_same NAME FILE OTHER: both files have to hold the same bytes.
expect_same() {
    cmp -s "$2" "$3" || fail "$1: $(cmp "$2" "$3" 2>&1 || true)"
}

# take_image: makes $image, which the script names, a copy of $made.
take_image() {
    cp --sparse=always "$made" "$image"
    # a write sets the time of its moment
    touch -d @0 "$image"
}

# expect_unwritten NAME: the image is as it was taken.
expect_unwritten() {
    [[ $(stat -c %Y "$image") == 0 ]] || fail "$1: the image was written"
    cmp -s -n 256M "$image" "$made" || fail "$1: the image has other bytes"
}

# expect_lines NAME LIMIT TABLE OPTION RANGE: `dump` has to print the lines of the table whose numbers are in the range;
# they are all below the limit.
expect_lines() {
    local name=$1 limit=$2 table=$3 first=${5%~*} last=${5#*~}
    awk -v first=$((first)) -v last=$((last < 0 ? limit : last)) '$1 >= first && $1 <= last' "$table" >"$tmp/wanted"
    expect_file "$name: $4 $5" 0 "$tmp/wanted" "$program" "$image" dump "$4" "$5"
    # the texts are long: say which lines differ
    diff "$tmp/wanted" "$tmp/output" | head -n 8 || true
}

# check_ranges NAME LIMIT TABLE OPTION RANGE..: these ranges, and those of all numbers and of the greatest one.
check_ranges() {
    local name=$1 limit=$2 table=$3 option=$4 greatest=$(($2 - 1)) range
    shift 4
    for range in "$@" '0~-1' "0~$greatest" "$greatest~$greatest" "$greatest~-1"; do
        expect_lines "$name" "$limit" "$table" "$option" "$range"
    done
}

# expect_outside NAME OPTION WORD NUMBER: this number of the word is refused.
expect_outside() {
    expect "$1: $2 $3" 20 "refused 14 OutOfRange $4" "$program" "$image" dump "$2" "$3"
}

# check_ends NAME OPTION LIMIT: ranges that don't lie below the limit.
check_ends() {
    local name=$1 option=$2 limit=$3 greatest=$(($3 - 1)) range
    for range in "$limit~-1" "$limit~0" "$limit~$((limit + 1))" "0~$limit" "$greatest~$limit"; do
        expect_outside "$name" "$option" "$range" "$limit"
    done
    expect_outside "$name" "$option" "$greatest~$((greatest - 1))" "$greatest"
    expect_outside "$name" "$option" '1~0' 1
    # numbers that 32 bits would cut
    expect_outside "$name" "$option" '4294967296~-1' 4294967296
    expect_outside "$name" "$option" '1~4294967298' 4294967298
    expect_outside "$name" "$option" '1~18446744073709551615' 18446744073709551615
}

# output_cut COMMAND..: the reader of what the command prints goes away.
output_cut() {
    "$@" | head -n 1 >/dev/null
    return "${PIPESTATUS[0]}"
}

# make_image NAME SIZE OPTION..: makes $made by mkfs.f2fs, and says its features in $feature. False where this mkfs.f2fs
# turns on others than lost_found and sb_checksum.
make_image() {
    local name=$1 size=$2
    shift 2
    made=$tmp/made
    rm -f "$made"
    truncate -s "$size" "$made"
    if ! mkfs.f2fs -q -f "$@" "$made" >/dev/null; then
        fail "$name: mkfs.f2fs ended badly"
        return 1
    fi
    feature=$(od -A n -t u4 -j $((1024 + 2180)) -N 4 "$made")
    if ((feature & ~0xA00)); then
        echo "skipped: $name: this mkfs.f2fs turns on other features ($(printf '0x%X' "$feature"))"
        return 1
    fi
}

# run_real NAME TOOL WORD..: runs a real tool on $made. False where it ended badly.
run_real() {
    local name=$1
    shift
    "$@" "$made" </dev/null >"$tmp/log" 2>&1 && return
    fail "$name: $1 ended badly: $(tail -c 300 "$tmp/log")"
    return 1
}

# expect_real NAME OPTION FIELDS TABLE: these fields of what `dump` prints are the table that dump.f2fs read.
expect_real() {
    "$program" "$image" dump "$2" '0~-1' </dev/null | cut -d ' ' -f "$3" >"$tmp/output" || true
    diff "$4" "$tmp/output" >"$tmp/difference" || fail "$1: $2: dump.f2fs reads other entries: $(head -n 8 "$tmp/difference")"
}

# The last command of a script.
finish() {
    if ((failures > 0)); then
        echo "$failures failed"
        exit 1
    fi
}
