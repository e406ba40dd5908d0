#!/bin/sh
# Proves the static library and puts it where the C example and the Rust crates look for it: target/staticlib/libcopp3_c.a.
set -eu
cd "$(dirname "$0")/.."
(cd crates/copp3_c_c && rt lib)
mkdir -p target/staticlib
cp crates/copp3_c_c/out/libcopp3_c_c.a target/staticlib/libcopp3_c.a
