#!/usr/bin/env bash
# The way back, against the first library: looks whether the frozen definitions, crates/queue/specs/paper/Base.antt, are still
# those of the commit in BASE; makes random queues, converts their images to kind 01 with the library of this tree, and
# opens those with the library of the commit in BASE, which has to write each of them again as it is. Stops at the first that
# differs, and keeps its text. Then the same with one wrong digit in each text, of which none may pass.
#
# usage: POKERBOX_BASE_LIB=FOLDER base.sh [QUEUES [SEED]]      (100000, 1)
#
# POKERBOX_BASE_LIB names the folder with the kept libpokerbox.a of BASE. It can't be built any more: that commit is written
# for a Rattle of its time, and today's reads none of it.
set -euo pipefail
library=${POKERBOX_BASE_LIB:-}
if [ -d "$library" ]; then library=$(cd "$library" && pwd); fi
cd "$(dirname "${BASH_SOURCE[0]}")"

BASE=c82b581
queues=${1:-100000}
seed=${2:-1}

# Each line of a definition above 'Opening' stands in that commit's files of definitions. That is looked for in the file as it
# was in OLDER, the last commit in BASE's spelling; and the file of today is the one that the port left, which RESPELLED is a
# sum of (docs/PORT.md says what the port changes in such a file).
OLDER=a52c368
RESPELLED=70d4ae1ccd6922fc8d95b6eafc9b768bea36455d8b9e5774c543fc4e2ea2c66c
plain() { sed -e '/^use /d' -e '/^ *--/d' -e '/^ *$/d'; }
base_file() { git -C .. show "$BASE:crates/$1"; }
frozen=$(git -C .. show "$OLDER:crates/queue/specs/paper/Base.antt" | sed -e '/^-- ---- Opening/,$d' -e 's/heldSum/heldBytes/g' | plain)
moved=$(grep -vxFf <(for file in Records Sound Area; do base_file "queue/specs/paper/$file.antt"; done; base_file image/specs/paper/Image.antt) <<<"$frozen" || true)
if [ -n "$moved" ]; then
    echo "base.sh: not in the definitions of $BASE:"
    echo "$moved"
    exit 1
fi
echo "base.sh: $(wc -l <<<"$frozen") lines of frozen definitions stand in those of $BASE"
sum=$(plain <../crates/queue/specs/paper/Base.antt | sha256sum | cut -d ' ' -f 1)
if [ "$sum" != "$RESPELLED" ]; then
    echo "base.sh: crates/queue/specs/paper/Base.antt is not as the port left it (its lines have the sum $sum)"
    exit 1
fi

if [ -z "$library" ]; then
    echo "base.sh: POKERBOX_BASE_LIB is not set, so no library is compared. It names a folder with the libpokerbox.a of $BASE," >&2
    echo "base.sh: which was built when that commit could be; today's toolchain can't build it." >&2
    exit 2
fi
if [ ! -f "$library/libpokerbox.a" ]; then
    echo "base.sh: $library has no libpokerbox.a, so no library is compared" >&2
    exit 2
fi

export POKERBOX_BASE_LIB_DIR=$library
target=${CARGO_TARGET_DIR:-target}
cargo build --release -p compare --bin older
# It is a program of its own, linked with the other library.
cargo build --release --manifest-path base/Cargo.toml --target-dir "$target/base"

kept=$(mktemp -d)/text
compared() { # OPTIONS..
    "$target/release/older" --queues "$queues" --seed "$seed" "$@" | "$target/base/release/base" "$@" "$kept"
}
compared
compared --altered
rmdir "$(dirname "$kept")"
