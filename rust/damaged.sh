#!/bin/sh
# Runs the test `damaged` under valgrind, with few cases: no read or write outside what is lent.
# The number of cases may be given (200).
set -eu
cd "$(dirname "$0")"
command -v valgrind >/dev/null || { echo "valgrind is not installed" >&2; exit 2; }
program=$(cargo test -p pokerbox --test damaged --no-run --message-format=short 2>&1 |
    sed -n 's/.*(\(.*damaged-[0-9a-f]*\)).*/\1/p')
[ -x "$program" ] || { echo "the test's program was not found" >&2; exit 2; }
POKERBOX_DAMAGED_CASES=${1:-200} valgrind --error-exitcode=1 --leak-check=no \
    "$program" --test-threads=1
