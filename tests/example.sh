#!/usr/bin/env bash
# Installs the library in each way that a host may ask for, and builds and runs the examples against that as a host would: by gcc and by
# clang, warnings being errors, as C99 and as C11, plain, under memcheck, and under the address and undefined-behaviour sanitizers. The
# program batchprint reads the file that examples/keep.c wrote. The header must stand alone, and its inline functions must be safe on any
# numbers.
set -eu
cd "$(dirname "$0")/.."
root=$PWD
out=$(mktemp -d)
trap 'rm -r "$out"' EXIT
strict=(-pedantic -Wall -Wextra -Werror)
sanitized=(-g -O1 -fsanitize=address,undefined -fno-sanitize-recover=all)

cat >"$out/pair.expected" <<'END'
batch 1: 960 pads of the receiver are the sender's of its choice
batch 2: 960 pads of the receiver are the sender's of its choice
batch 3: 960 pads of the receiver are the sender's of its choice
verify: refused, SOFTSPOKEN_ERR_CHECK
correct: refused, SOFTSPOKEN_ERR_STAGE
END
cat >"$out/keep.expected" <<'END'
width 4 blocks 3 batch 4294967297: 10298 bytes kept
read back, and written again: the same
END
cat >"$out/lengths.expected" <<'END'
width 4 blocks 3 batch 4294967297
kind 1 length 8192
kind 2 length 10
kind 3 length 992
kind 4 length 8
kind 5 length 1032
END

# runs a command and compares what it prints with what is expected under a name
expect() {
    local name=$1
    shift
    if ! "$@" >"$out/printed" || ! cmp -s "$out/printed" "$out/$name.expected"; then
        echo "example: not what is expected of: ${*#"$out/"}"
        cat "$out/printed"
        exit 1
    fi
}

# what batchprint says of the file that was kept, but for the digests
lengths() { build/batchprint <"$out/file" | sed 's/ sha256 [0-9a-f]\{64\}$//'; }

# builds both examples by a compiler and its flags, which runs elsewhere
build() {
    local name
    for name in pair keep; do
        (cd "$out" && "$@" "${cflags[@]}" -o "$name" "$root/examples/$name.c" "${libs[@]}")
    done
}

# runs both, by the command that is given, or plain
run() {
    rm -f "$out/file"
    expect pair "$@" "$out/pair"
    expect keep "$@" "$out/keep" "$out/file"
    expect lengths lengths
}

# sets the words that a host compiles and links with, as pkg-config gives them for the library under a prefix
use() {
    export PKG_CONFIG_PATH="$1/lib/pkgconfig"
    eval "cflags=($(pkg-config --cflags softspoken)) libs=($(pkg-config --libs softspoken))"
}

# Under a relative prefix, one with a space, and a staged one that is then moved to its place.
make -s install PREFIX="$(realpath --relative-to=. "$out")/relative"
make -s install PREFIX="$out/with a space"
make -s install PREFIX="$out/staged" DESTDIR="$out/stage"
mv "$out/stage$out/staged" "$out/staged"
make -s install PREFIX=staged/too DESTDIR="$out/stage"
if ! grep -qx "prefix=$root/staged/too" "$out/stage$root/staged/too/lib/pkgconfig/softspoken.pc"; then
    echo "example: the prefix in the pkg-config file is not absolute"
    exit 1
fi
for prefix in "$out/relative" "$out/with a space" "$out/staged"; do
    use "$prefix"
    build gcc
    run
done
make -s install PREFIX="$out/prefix"
use "$out/prefix"
version=$(pkg-config --modversion softspoken)

# The archive has no data that a call could keep, exports what the header declares, and needs no more than is told.
if [ "$(size build/libsoftspoken.a | awk 'NR > 1 { n += $2 + $3 } END { print n }')" != 0 ]; then
    echo "example: the archive has data of its own"
    exit 1
fi
nm -g build/libsoftspoken.a | awk 'NF > 1 { print $(NF - 1), $NF }' | sort >"$out/names"
{ sed -n 's/^\(uint32_t\|struct softspoken_file\) \(softspoken_[a-z_]*\)(.*/T \2/p' include/softspoken.h; printf 'U %s\n' memset; } | sort >"$out/declared"
if ! diff "$out/names" "$out/declared"; then
    echo "example: the archive's names are not the header's"
    exit 1
fi

for cc in gcc clang; do
    for std in c99 c11; do
        build "$cc" -std=$std -O2 "${strict[@]}"
        run
        "$cc" -std=$std "${strict[@]}" -Wconversion "${cflags[@]}" -fsyntax-only tests/header.c
    done
    run valgrind -q --error-exitcode=9 --leak-check=full --track-origins=yes
    build "$cc" "${sanitized[@]}" "${strict[@]}"
    run
    "$cc" -std=c++11 "${strict[@]}" -Wconversion "${cflags[@]}" -fsyntax-only -x c++ tests/header.c
    "$cc" -std=c++11 "${strict[@]}" -Wconversion "${cflags[@]}" -fsyntax-only -x c++ tests/inline.c
    "$cc" -std=c99 "${sanitized[@]}" "${strict[@]}" -Wconversion "${cflags[@]}" -o "$out/inline" tests/inline.c
    "$out/inline" "$version"
done

# puts a wrong header into a folder: an edit of the right one, which must change it
wrong() {
    mkdir -p "$out/wrong"
    sed "$1" include/softspoken.h >"$out/wrong/softspoken.h"
    if cmp -s include/softspoken.h "$out/wrong/softspoken.h"; then
        echo "example: the header has nothing for the edit $1"
        exit 1
    fi
}
wrong 's/_SIBLINGS_BYTES 4096/_SIBLINGS_BYTES 4095/'
if gcc -I"$out/wrong" -fsyntax-only tests/header.c 2>"$out/log" || ! grep -q 'holds_' "$out/log"; then
    echo "example: a wrong size in the header was not seen"
    exit 1
fi
wrong 's/ || transfer >= SOFTSPOKEN_BASE_TRANSFERS//'
clang "${sanitized[@]}" -I"$out/wrong" -o "$out/inline" tests/inline.c
if "$out/inline" "$version" >"$out/log" 2>&1 || ! grep -q 'heap-buffer-overflow' "$out/log"; then
    echo "example: a read beyond delta was not seen"
    exit 1
fi
wrong 's/ && to <= file_len//'
clang "${sanitized[@]}" -I"$out/wrong" -o "$out/inline" tests/inline.c
if "$out/inline" "$version" >"$out/log" 2>&1 || ! grep -q 'heap-buffer-overflow' "$out/log"; then
    echo "example: a read beyond a file was not seen"
    exit 1
fi
echo "example: both run as expected by gcc and clang, plain, under memcheck and sanitized; the header stands alone in C and C++, and its inline" \
    "functions are safe on any numbers"
