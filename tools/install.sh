#!/usr/bin/env bash
# install.sh PREFIX: installs the static library, the C header and a pkg-config file below PREFIX. The library is made by
# tools/staticlib.sh; POKERBOX_LIB_DIR names another folder that has it.
set -euo pipefail

if [ $# -ne 1 ] || [ -z "$1" ] || [ "${1#-}" != "$1" ]; then
    echo "usage: install.sh PREFIX" >&2
    exit 2
fi
mkdir -p "$1"
prefix=$(cd "$1" && pwd)
root=$(cd "$(dirname "${BASH_SOURCE[0]}")/.." && pwd)
library=${POKERBOX_LIB_DIR:-$root/target/staticlib}/libpokerbox.a
if [ ! -f "$library" ]; then
    echo "install.sh: $library is not there: run \`bash tools/staticlib.sh\` in $root first" >&2
    exit 1
fi
version=$(sed -n 's/^version = "\(.*\)"$/\1/p' "$root/rust/node/Cargo.toml")

install -D -m 644 "$library" "$prefix/lib/libpokerbox.a"
install -D -m 644 "$root/rust/node/include/pokerbox.h" "$prefix/include/pokerbox.h"
install -d "$prefix/lib/pkgconfig"
cat >"$prefix/lib/pkgconfig/pokerbox.pc" <<END
prefix=$prefix
libdir=\${prefix}/lib
includedir=\${prefix}/include

Name: pokerbox
Description: The private transaction queue of an Ergo mining unit
Version: $version
Cflags: -I\${includedir}
Libs: -L\${libdir} -lpokerbox
END
echo "Installed below $prefix: lib/libpokerbox.a, include/pokerbox.h, lib/pkgconfig/pokerbox.pc"
