#!/usr/bin/env bash
# staticlib.sh: proves the crate pokerbox_c and those below it, and puts the static library where C and Rust look for it:
# target/staticlib/libpokerbox.a. `rt lib` calls it by the crate's name, out/libpokerbox_c.a, and `rt ci` removes that file.
set -euo pipefail
cd "$(dirname "${BASH_SOURCE[0]}")/.."

(cd crates/pokerbox_c && rt lib)
made=crates/pokerbox_c/out/libpokerbox_c.a
library=target/staticlib/libpokerbox.a
# What is the same stays, so that cargo need not build anew.
if ! cmp -s "$made" "$library"; then
    mkdir -p "$(dirname "$library")"
    cp "$made" "$library.new"
    mv "$library.new" "$library"
fi
echo "$library: $(wc -c <"$library") bytes"
