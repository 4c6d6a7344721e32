#!/usr/bin/env bash
# Runs the cases and the scripts of tests/real/ with the programs that were built: for whoever changed a script or a text.
set -uo pipefail
cd "$(dirname "$0")/.." || exit
. scripts/parts.bash

cases='the cases of check'
tries='the scripts of tests/real/'
announce "$cases" "$tries"
failed=0
begin_part "$cases"
scripts/run_cases.sh || failed=1
end_part
begin_part "$tries"
scripts/try_program.sh || failed=1
end_part
tell_parts
exit "$failed"
