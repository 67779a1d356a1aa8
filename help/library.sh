#!/usr/bin/env bash
# Proves a static library and writes it: help/library.sh gateway writes target/staticlib/libgateway.a, help/library.sh node target/staticlib/libnode.a.
set -eu
case "$*" in
gateway | node) ;;
*)
    echo 'usage: help/library.sh gateway, or help/library.sh node' >&2
    exit 2
    ;;
esac
cd "$(dirname "$0")/.."
. help/built.sh
build_library "$1"
echo "library: target/staticlib/lib$1.a is proved and written"
