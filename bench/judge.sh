#!/usr/bin/env bash
# Compares the proved judge, linked in from the library, with judges in plain Rust on the same cases, and
# prints tables. On x86-64 by time; on another processor, and wherever QEMU names an emulator, by counted
# instructions under it. With EXACT=1 they are counted one by one, which takes several times as long:
# otherwise an instruction that lies over the end of a page is counted twice.
#   bench/judge.sh LIBRARY OUT [CASES]
# LIBRARY is a folder that './snaldrek library' filled, OUT one for all that is made here. README.md beside
# this file says what must be installed and what the figures mean.
set -euo pipefail
home=$(cd "$(dirname "$(readlink -f "${BASH_SOURCE[0]}")")/.." && pwd -P)
here=$home/bench
. "$home/.ci/x86.sh"

fail() {
    printf 'judge.sh: %s\n' "$*" >&2
    exit 2
}

[ $# -ge 2 ] || fail "usage: bench/judge.sh LIBRARY OUT [CASES]"
library=$(cd "$1" && pwd -P)
mkdir -p "$2"
out=$(cd "$2" && pwd -P)
cases=${3:-10000} rounds=9 seed=1
fills='0 2046' long='16384 65534' # rows in the table
steps='8192 32768 49152'         # more of them, for the plot
scratch=$out

find_linker || fail "there is no $linker that links x86-64 programs (bench/README.md)"
find_rustc || fail "no rustc here has the standard library for $target (bench/README.md)"
command -v python3 >/dev/null || fail "python3 is missing (bench/README.md)"
qemu=''
if [ "$(uname -m)" != x86_64 ] || [ -n "${QEMU:-}" ]; then
    qemu=${QEMU:-qemu-x86_64}
    command -v "$qemu" >/dev/null || fail "'$qemu' is missing (bench/README.md)"
    "${CC:-cc}" -O2 -Wall -Wextra -shared -fPIC -o "$out/count.so" "$here/count.c"
fi

# Everything in Rust is optimised, for the same baseline as the library.
compile() { "$RUSTC" --edition 2021 -C opt-level=3 -C codegen-units=1 -C panic=abort "$@"; }
compile_x86() { compile --target "$target" -C linker="$linker" -C target-cpu=x86-64 "$@"; }

build() {
    mkdir -p "$out/native" "$out/x86"
    compile --crate-type rlib --crate-name second --out-dir "$out/native" "$home/rust/second/src/lib.rs"
    compile --extern "second=$out/native/libsecond.rlib" -o "$out/cases" "$here/cases.rs"
    compile_x86 --crate-type rlib --crate-name second --out-dir "$out/x86" "$home/rust/second/src/lib.rs"
    local way
    for way in plain words; do
        compile_x86 --cfg "rows=\"$way\"" --extern "second=$out/x86/libsecond.rlib" -L "$library" -l static=snaldrek \
            -o "$out/judge-$way" "$here/judge.rs"
    done
    "$out/cases" 2046 100 "$seed" >"$out/tape"
    ${qemu:+"$qemu"} "$out/judge-words" check "$out/tape" >/dev/null || fail "the tuned judge differs from the others"
}

# Counted: the instructions so far at a mark before and after each call. The second judge, which takes several times
# as many as the others in a long table, is always counted by blocks.
count() { # FILL SIDE PROGRAM NAME
    local exact=${EXACT:+-singlestep}
    [ "$2" != second ] || exact=
    "$qemu" $exact -plugin "$out/count.so,out=$out/total,marks=$out/marks" "$out/$3" mark "$4" "$out/tape"
    awk 'NR % 2 { before = $1; next } { printf "%d ", $1 - before } END { print "" }' "$out/marks" |
        sed "s/^/1 $2 /" >>"$out/costs.$1"
}

measure() { # FILL CASES
    "$out/cases" "$1" "$2" "$seed" >"$out/tape"
    ${qemu:+"$qemu"} "$out/judge-plain" check "$out/tape" >"$out/answers.$1" || fail "the judges differ with $1 rows"
    : >"$out/costs.$1"
    if [ -n "$qemu" ]; then
        local side
        for side in nothing proved plain second; do count "$1" $side judge-plain $side; done
        count "$1" words judge-words plain
    else
        "$out/judge-plain" time "$rounds" "$out/tape" >>"$out/costs.$1"
        "$out/judge-words" time "$rounds" "$out/tape" | sed -n 's/^\([0-9]*\) plain /\1 words /p' >>"$out/costs.$1"
    fi
    [ -z "$qemu" ] || count_blocks "$1"
    rm -f "$out/tape"
}

# Counted: what ran in the proved judge's calls of accepted cases, block by block.
count_blocks() { # FILL
    "$qemu" ${EXACT:+-singlestep} -plugin "$out/count.so,out=$out/total,blocks=$out/blocks.$1" \
        "$out/judge-plain" accepted proved "$out/tape" >"$out/accepted.$1"
}

# Estimated: the cycles that llvm-mca gives for the blocks that ran, for some processors.
estimate() {
    command -v llvm-mca-22 >/dev/null || command -v llvm-mca >/dev/null || {
        printf '\nNo estimate of cycles: llvm-mca is missing.\n'
        return
    }
    printf '\nCycles by the estimate of llvm-mca, 1000 cases; each block as a loop of its own, then as if nothing waited:\n\n'
    echo '| rows | processor | proved / plain | nothing waits | proved / tuned | nothing waits |'
    echo '| --- | --- | --- | --- | --- | --- |'
    local fill cpu
    for fill in $fills $long; do
        "$out/cases" "$fill" 1000 "$seed" >"$out/tape"
        note_blocks proved judge-plain
        note_blocks plain judge-plain
        note_blocks plain judge-words
        for cpu in skylake znver2 alderlake; do
            python3 "$here/cycles.py" "$cpu" "$out"/blocks.{proved.judge-plain,plain.judge-plain,plain.judge-words} |
                awk -v row="| $fill | $cpu" '{ loop[NR] = $1; free[NR] = $2 }
                    END { printf "%s | %.3f | %.3f | %.3f | %.3f |\n", row, loop[1] / loop[2], free[1] / free[2], loop[1] / loop[3], free[1] / free[3] }'
        done
    done
}

note_blocks() { # SIDE PROGRAM
    "$qemu" -plugin "$out/count.so,out=$out/total,blocks=$out/blocks.$1.$2" "$out/$2" mark "$1" "$out/tape"
}

build
for fill in $fills; do measure "$fill" "$cases"; done
for fill in $long; do measure "$fill" 1000; done
for fill in $steps; do measure "$fill" 100; done
if [ -n "$qemu" ]; then
    unit=instructions
    echo "Counted instructions, no times: this machine is $(uname -m), and both sides ran under $("$qemu" --version | sed -n 1p)."
else
    unit=nanoseconds
    echo "Nanoseconds on this machine, $rounds rounds, the sides in turn."
fi
echo "$("$RUSTC" --version); $cases cases at each of $fills rows, 1000 at each of $long; all judges gave the same answers and left the same ledgers."
# shellcheck disable=SC2086
python3 "$here/report.py" "$out" "$unit" $fills $long
if [ -n "$qemu" ]; then
    # shellcheck disable=SC2046,SC2086
    python3 "$here/parts.py" "$out" "$out/judge-plain" $(printf '%s\n' $fills $long $steps | sort -n)
    estimate
fi
