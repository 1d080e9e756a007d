#!/usr/bin/env bash
# Links target/staticlib/libods1.a into target/python/libods1.so, which the module ods1 loads.

set -eu
cd "$(dirname "${BASH_SOURCE[0]}")/../.."

archive=target/staticlib/libods1.a
library=target/python/libods1.so

if [[ ! -f $archive ]]; then
    printf '%s is missing: run make library at the root of the repository\n' "$archive" >&2
    exit 1
fi

mkdir -p "$(dirname "$library")"
# No call is left without its code (defs), and no code is changed as it is loaded (text).
"${CC:-cc}" -shared -o "$library" -Wl,-z,defs -Wl,-z,text \
    -Wl,--whole-archive "$archive" -Wl,--no-whole-archive
