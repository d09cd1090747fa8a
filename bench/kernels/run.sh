#!/bin/sh
# Builds the kernels as a static library, and times them beside plain loops that rustc builds.
# Arguments go to rustc, as `-C target-cpu=x86-64-v2`.
set -e
here=$(cd "$(dirname "$0")" && pwd)
library="$here/../../crates/kernels_c"
(cd "$library" && rt lib >/dev/null)
folder=$(mktemp -d)
rustc --edition 2024 -O "$@" "$here/bench.rs" -o "$folder/bench" -C link-arg="$library/out/libkernels_c.a"
"$folder/bench"
rm -r "$folder"
