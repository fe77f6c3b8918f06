#!/usr/bin/env bash
# Installs the Debian packages that the Rust side is built from and tested with, where one of them is missing.
set -euo pipefail

packages=(gcc pkg-config librust-serde-dev librust-serde-json-dev librust-serde-derive-dev librust-hex-dev)

missing=()
for package in "${packages[@]}"; do
    case $(dpkg -s "$package" 2>/dev/null || true) in
    *'Status: install ok installed'*) ;;
    *) missing+=("$package") ;;
    esac
done
if [ ${#missing[@]} -eq 0 ]; then
    echo "Debian packages: none is missing"
    exit 0
fi

root=()
if [ "$(id -u)" -ne 0 ]; then
    command -v sudo >/dev/null || {
        echo "packages.sh: these packages are missing, and only root can install them: ${missing[*]}" >&2
        exit 1
    }
    root=(sudo)
fi
echo "Debian packages to install: ${missing[*]}"
export DEBIAN_FRONTEND=noninteractive
"${root[@]}" apt-get update -q
"${root[@]}" apt-get install -q -y --no-install-recommends "${missing[@]}"
