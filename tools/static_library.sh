#!/bin/sh
# Proves and builds the calls for a controller in C: target/staticlib/libcontroller.a, whose header is
# crates/controller/controller.h.
set -eu
cd "$(dirname "$0")/.."
(cd crates/controller_c && rt lib)
mkdir -p target/staticlib
cp crates/controller_c/out/libcontroller_c.a target/staticlib/libcontroller.a
