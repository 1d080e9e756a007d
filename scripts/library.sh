#!/usr/bin/env bash
# Builds the proved library for C and others: rt lib in crates/ods1_c, whose archive is copied to
# target/staticlib/libods1.a, where those who link it look for it.

set -eu
cd "$(dirname "${BASH_SOURCE[0]}")/.."

built=crates/ods1_c/out/libods1_c.a
archive=target/staticlib/libods1.a

rm -f "$built"
(cd crates/ods1_c && exec rt lib)

mkdir -p "$(dirname "$archive")"
cp "$built" "$archive.new"
mv "$archive.new" "$archive"
