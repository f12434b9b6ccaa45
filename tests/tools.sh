#!/usr/bin/env bash
# Looks for the tools that the tests need. If some are missing it names them, prints the line that installs them on Debian 12, and fails.
set -u
missing=() packages=()

# what is needed, its package (- if there is none), and the command that finds it
need() {
    local what=$1 package=$2
    shift 2
    if "$@" >/dev/null 2>&1; then return; fi
    missing+=("$what")
    if [ "$package" != - ]; then packages+=("$package"); fi
}

# clang comes without the libraries of its sanitizers
sanitizers() {
    local out
    out=$(mktemp -d)
    echo 'int main(void) { return 0; }' | clang -fsanitize=address,undefined -x c -o "$out/program" - && "$out/program"
    local status=$?
    rm -r "$out"
    return $status
}

# rustup puts it where not every shell looks
rust() { PATH=$PATH:~/.cargo/bin; [ "$(rustc --version | sed -n 's/^rustc 1\.\([0-9]*\)\..*/\1/p')" -ge 63 ]; }

need 'rt (it comes with Rattle, not with Debian)' - command -v rt
need python3 python3 command -v python3
need make make command -v make
need gcc gcc command -v gcc
need g++ g++ command -v g++
need clang clang command -v clang
need "clang's sanitizers" libclang-rt-14-dev sanitizers
need valgrind valgrind command -v valgrind
need pkg-config pkg-config command -v pkg-config
need 'rustc 1.63 or newer' rustc rust
if [ ${#missing[@]} = 0 ]; then exit 0; fi
printf 'tests: missing: %s\n' "${missing[@]}"
if [ ${#packages[@]} != 0 ]; then echo "apt-get install ${packages[*]}"; fi
exit 1
