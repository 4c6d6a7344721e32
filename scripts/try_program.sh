#!/usr/bin/env bash
# Tries the built program on real files and against the real F2FS tools: all scripts of tests/real/, a few at a time.
# Where the real tools are missing they are installed, by root alone.
set -uo pipefail
cd "$(dirname "$0")/.." || exit

export PATH=$PATH:/usr/sbin:/sbin DEBIAN_FRONTEND=noninteractive
# install TOOL PACKAGE LOST: installs the package where the tool is missing, and says what is lost where that fails.
install() {
    if ! command -v "$1" >/dev/null && command -v apt-get >/dev/null && [[ $(id -u) == 0 ]]; then
        { timeout 300 apt-get update && timeout 300 apt-get install -y "$2"; } </dev/null >/dev/null 2>&1 ||
            echo "$2 could not be installed: $3"
    fi
}
install mkfs.f2fs f2fs-tools 'the scripts that need them are skipped'
install strace strace 'defrag is not ended at its writes'

unset F2TOOLS F2MEASURE
output=$(mktemp -d "${TMPDIR:-/tmp}/f2tools-tries.XXXXXX")
trap 'rm -rf "$output"' EXIT

# try SCRIPT: runs it, and keeps what it prints and whether it passed.
try() {
    local name
    name=$(basename "$1" .sh)
    if "$1" >"$output/$name.text" 2>&1; then
        echo "passed: $1" >>"$output/$name.text"
    else
        echo "FAILED: $1" >>"$output/$name.text"
        touch "$output/$name.failed"
    fi
}

for script in tests/real/*.sh; do
    while (($(jobs -rp | wc -l) >= $(nproc))); do
        wait -n
    done
    try "$script" &
done
wait
cat "$output"/*.text
! compgen -G "$output/*.failed" >/dev/null
