#!/usr/bin/env bash
# Builds the library for C, which proves it, and the example in table.c, and runs that.
set -eu
cd "$(dirname "$0")/.."
mkdir -p target
(cd crates/capi && rt lib) >target/capi.log 2>&1 || { cat target/capi.log >&2; exit 1; }
${CC:-cc} -Wall -Wextra -Werror -Iinclude examples/table.c crates/capi/out/libcapi.a -o target/table
target/table
