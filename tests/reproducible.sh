#!/usr/bin/env bash
# Two builds give the same archive, byte for byte. It is built a second time from the same crates, in a directory with a longer name, in
# another time zone and under another umask. Of what rt keeps, only the proved libraries are lent, which hold no machine code (that is looked
# at first): so the prover runs on host_c again, and the whole object is compiled again.
set -eu
cd "$(dirname "$0")/.."
make -s build/libsoftspoken.a
out=$(mktemp -d)
trap 'rm -r "$out"' EXIT
second=$out/a/directory/with/quite/another/name
mkdir -p "$second"
tar -c --exclude='crates/*/out' crates crates.txt Makefile include | tar -x -C "$second"
for library in crates/*/out/rlib; do
    mkdir "$second/${library%/rlib}"
    cp -r "$library" "$second/$library"
done

# the files that hold an object, by itself or in an archive (the prover has archives of its own)
compiled() { LC_ALL=C grep -srlaP '\x7fELF' "$1" || true; }

# rt may also take what it kept of the prover's work on host_c here
for lent in "$second" crates/host_c/out/incremental; do
    if [ -n "$(compiled "$lent")" ]; then
        echo "reproducible: the second build would start from compiled code: $(compiled "$lent")"
        exit 1
    fi
done
if ! (umask 077 && cd "$second" && TZ=Pacific/Auckland make -s) >"$out/log" 2>&1; then
    cat "$out/log"
    exit 1
fi
if [ "$(compiled "$second/build")" != "$second/build/libsoftspoken.a" ]; then
    echo "reproducible: the second build made no archive that would be known as compiled code"
    exit 1
fi
cmp build/libsoftspoken.a "$second/build/libsoftspoken.a"
echo "reproducible: a second build in another directory gives the same $(stat -c %s build/libsoftspoken.a) bytes"
