#!/usr/bin/env bash
# How much stack each exported function takes, at every width; no more than include/softspoken.h says. The C library's functions are bound at
# the start, so that the first call of one doesn't count.
set -eu
cd "$(dirname "$0")/.."
out=$(mktemp -d)
trap 'rm -r "$out"' EXIT
make -s build/libsoftspoken.a
gcc -O2 -Wall -Wextra -Werror -Wl,-z,now -Iinclude -o "$out/stack" tests/stack.c build/libsoftspoken.a
"$out/stack"
