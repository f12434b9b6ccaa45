#!/usr/bin/env bash
# A step that asks for the impossible keeps any promise, whatever it does: its own proof goes through. So crates/theorems must refuse it, at
# the ties, which compare whole contracts. (A must-fail edit can't show this: it checks its own crate alone.)
set -eu
cd "$(dirname "$0")/.."
out=$(mktemp -d)
trap 'rm -r "$out"' EXIT
(cd crates/theorems && rt check) >"$out/log" 2>&1 || { cat "$out/log"; exit 1; }
# the proved libraries are lent, but for host
tar -c --exclude='crates/*/out' crates crates.txt | tar -x -C "$out"
for library in crates/*/out/rlib; do
    if [ "$library" != crates/host/out/rlib ]; then
        mkdir "$out/${library%/rlib}"
        cp -r "$library" "$out/$library"
    fi
done
# the receiver's setup, which is the first function, asks for a contradiction and gives 7
sed -i -e '0,/^    ensures/s//    requires { ⊥ }\n    ensures/' -e '0,/^    let answer = .*/s//    7/' \
    -e '0,/^    answer::number_of(answer)$/{/^    answer::number_of(answer)$/d}' "$out/crates/host/src/lib.rt"
cd "$out/crates/theorems"
if rt check >"$out/log" 2>&1 || ! grep -q '^fn host::softspoken_receiver_setup: proved' "$out/log" ||
    ! grep -q 'Ties.*error: `softspoken-receiver-setup-promises`' "$out/log"; then
    cat "$out/log"
    echo "ties: a step that asks for the impossible was not refused at the ties"
    exit 1
fi
echo "ties: a step that asks for the impossible is proved, and refused at the ties"
