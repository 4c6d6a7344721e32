#!/usr/bin/env bash
# Runs the built case runner: on all files of cases, or on those that are named.
set -euo pipefail
cd "$(dirname "$0")/../crates/f2_cases/data"
if (($#)); then
    ../out/f2_cases "$@"
else
    xargs ../out/f2_cases <../args
fi
