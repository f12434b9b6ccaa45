#!/usr/bin/env bash
# Runs the compiled functions under memcheck with their secrets marked undefined. The jump on the verify's answer is the only place that
# may depend on them; planted leaks must be seen.
set -eu
cd "$(dirname "$0")/.."
out=$(mktemp -d)
trap 'rm -r "$out"' EXIT
make -s build/libsoftspoken.a build/libbench.a
gcc -O1 -Wall -Wextra -Werror -o "$out/secrets" tests/secrets.c build/libbench.a build/libsoftspoken.a

run() { valgrind -q --num-callers=1 --log-file="$out/log" "$out/secrets" "$@"; }

# The functions that memcheck named, one for each jump or address in the code.
places() { grep -A 1 'uninitialised value' "$out/log" | sed -n 's/.* at 0x[0-9A-F]*: \([^ ]*\).*/\1/p'; }

run
if [ "$(places)" != softspoken_sender_verify ]; then
    echo "secrets: not the verify's answer alone: $(places)"
    exit 1
fi
for leak in jump address; do
    if run $leak >"$out/leak" || [ "$(places)" != planted_$leak ]; then
        echo "secrets: the planted $leak was not seen"
        exit 1
    fi
done
echo "secrets: one jump, on the verify's answer; both planted leaks seen"
