#!/usr/bin/env bash
# Counts the x86-64 instructions of one call of each hash, of the proved crates and of plain Rust, and
# prints them as tables. With FOLDER all that is built stays there, to be looked at.
#   bench/hashes.sh [FOLDER]
# README.md beside this file says what must be installed and what the counts mean.
set -euo pipefail
here=$(cd "$(dirname "$(readlink -f "${BASH_SOURCE[0]}")")" && pwd -P)
case $(uname -m) in
x86_64) default_linker=cc ;;
*) default_linker=x86_64-linux-gnu-gcc ;;
esac
rustc=${RUSTC:-rustc} cc=${CC:-cc} linker=${LINKER:-$default_linker} qemu=${QEMU:-qemu-x86_64}

fail() {
    printf 'hashes.sh: %s\n' "$*" >&2
    exit 2
}

for tool in rt "$rustc" "$cc" "$linker" "$qemu"; do
    command -v "$tool" >/dev/null || fail "'$tool' is missing (bench/README.md)"
done
if [ $# -gt 0 ]; then
    mkdir -p "$1"
    out=$(cd "$1" && pwd -P)
    [ -z "$(ls -A "$out")" ] || fail "the folder $out is not empty"
else
    out=$(mktemp -d)
    trap 'rm -rf "$out"' EXIT
fi

# The proved side: a repository of its own with the hash crates, and one crate that hands them to C.
proved_library() {
    mkdir -p "$out/repo/crates/hashes/src"
    cp -R "$here/../crates/octets" "$here/../crates/sha256" "$here/../crates/blake2b" "$out/repo/crates"
    cat >"$out/repo/crates.txt" <<'TEXT'
octets:
sha256: octets
blake2b: octets
hashes staticlib: octets sha256 blake2b
TEXT
    cat >"$out/repo/crates/hashes/src/lib.rt" <<'TEXT'
// The hashes as C functions, for the bench to link.
#![tactic(auto)]

#[unsafe(no_mangle)]
pub extern "C" fn hashes_compress(b: &[u8; 64], out: &mut [u8; 32]) {
    *out = sha256::compress(b);
}

#[unsafe(no_mangle)]
pub extern "C" fn hashes_compress_halves(l: &[u8; 32], r: &[u8; 32], out: &mut [u8; 32]) {
    *out = sha256::compress_halves(l, r);
}

#[unsafe(no_mangle)]
pub extern "C" fn hashes_hash(m: &[u8], out: &mut [u8; 32]) {
    *out = sha256::hash(m);
}

#[unsafe(no_mangle)]
pub extern "C" fn hashes_hash32(m: &[u8], personal: &[u8; 16], out: &mut [u8; 32]) {
    *out = blake2b::hash32(m, personal);
}
TEXT
    (cd "$out/repo/crates/hashes" && rt lib) >"$out/staticlib.log" 2>&1 || {
        tail -n 20 "$out/staticlib.log" >&2
        fail "the proved library was not built"
    }
}

# One program with both sides, the Rust side of SHA-256 by the way $1, of BLAKE2b by the way $2.
program() {
    "$rustc" --edition 2021 --target x86_64-unknown-linux-gnu -C linker="$linker" \
        -C opt-level=3 -C codegen-units=1 -C panic=abort -C target-cpu=x86-64 \
        --cfg "sha=\"$1\"" --cfg "blake=\"$2\"" \
        -L "$out/repo/crates/hashes/out" -l static=hashes -o "$out/$1-$2" "$here/hashes.rs"
    "$qemu" "$out/$1-$2" check || fail "the two sides of $1-$2 differ"
}

# All instructions of a run. One instruction to a block (-singlestep): of longer blocks, qemu counts the
# instruction that lies over the end of a page twice, and so a count would hang on where the code lies.
all() {
    "$qemu" -singlestep -plugin "$out/count.so,out=$out/count" "$@" >/dev/null
    cat "$out/count"
}

# Instructions of one call: of 1,000 calls more, less those of as many calls that do nothing.
calls() { # PROGRAM WORK SIDE
    local few many few_idle many_idle sum
    few=$(all "$out/$1" run "$2" "$3" 1000)
    many=$(all "$out/$1" run "$2" "$3" 2000)
    few_idle=$(all "$out/$1" run "$2" nothing 1000)
    many_idle=$(all "$out/$1" run "$2" nothing 2000)
    sum=$((many - few - (many_idle - few_idle)))
    [ $((sum % 1000)) -eq 0 ] || fail "not every call of $2 took the same number of instructions"
    echo $((sum / 1000))
}

# A row of a table: the proved side; each of some programs' Rust; the proved side over the least of them.
row() { # TITLE WORK PROGRAM..
    local title=$1 work=$2 proved rust least='' cells='' p
    shift 2
    proved=$(calls "$1" "$work" proved)
    for p in "$@"; do
        rust=$(calls "$p" "$work" rust)
        cells+=" $rust |"
        if [ -z "$least" ] || [ "$rust" -lt "$least" ]; then least=$rust; fi
    done
    printf '| %s | %s |%s %s |\n' "$title" "$proved" "$cells" "$(awk "BEGIN { printf \"%.3f\", $proved / $least }")"
}

sha_rows() { # PROGRAM..
    row 'SHA-256 `compress`, a block of 64 bytes' compress "$@"
    row 'SHA-256 `compress_halves`, twice 32 bytes' compress_halves "$@"
    row 'SHA-256 `hash`, 105 bytes' hash "$@"
}

"$cc" -O2 -Wall -Wextra -shared -fPIC -o "$out/count.so" "$here/count.c"
proved_library
program apart numbered
program together modulo
program window rows
program shaped written
program written numbered

echo "$(rt version); $("$rustc" --version); $("$qemu" --version | head -n 1)"
echo
echo '| plain Rust | proved | apart | together | window | proved / least |'
echo '|---|---|---|---|---|---|'
sha_rows apart-numbered together-modulo window-rows
echo
echo '| plain Rust | proved | numbered | modulo | rows | proved / least |'
echo '|---|---|---|---|---|---|'
row 'BLAKE2b `hash32`, 128 bytes' hash32 apart-numbered together-modulo window-rows
echo
echo '| tuned Rust | proved | shaped | written | proved / least |'
echo '|---|---|---|---|---|'
sha_rows shaped-written written-numbered
echo
echo '| tuned Rust | proved | written | proved / least |'
echo '|---|---|---|---|'
row 'BLAKE2b `hash32`, 128 bytes' hash32 shaped-written
