#!/usr/bin/env bash
# unit.sh [DIR]: runs the example `unit` over the library: a demonstration with a queue that it makes in DIR (a new temporary
# folder if none is named). Where DIR has a queue already, it prints what is stored there and changes nothing.
set -euo pipefail

case ${1-} in
'') folder=$(mktemp -d) ;;
-*) echo "usage: unit.sh [DIR]" >&2; exit 2 ;;
/*) folder=$1 ;;
*) folder=$PWD/$1 ;;
esac
cd "$(dirname "${BASH_SOURCE[0]}")/.."

if [ ! -f target/staticlib/libpokerbox.a ]; then
    echo "The library is not built yet. Its proofs are checked first, which takes some minutes (docs/PROOFS.md has the times)."
    bash tools/staticlib.sh
fi
bash tools/packages.sh
cd rust
run=(cargo run --release -p pokerbox --example unit -- "$folder")
for file in "$folder/queue.image" "$folder/queue.image.lock"; do
    if [ -e "$file" ] || [ -L "$file" ]; then
        exec "${run[@]}"
    fi
done
exec "${run[@]}" --demo
