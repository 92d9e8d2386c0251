# To be read into a script that links x86-64 programs on any machine: finds what that takes. The script has a
# folder of its own, $scratch, to try things in.
# shellcheck shell=bash disable=SC2034,SC2154
target=x86_64-unknown-linux-gnu

# The compiler that links x86-64 programs. A cross compiler links them whole, as the emulator need not
# know where their libraries are then.
find_linker() {
    linker=x86_64-linux-gnu-gcc whole=-static
    [ "$(uname -m)" != x86_64 ] || linker=cc whole=
    command -v "$linker" >/dev/null 2>&1 || return 1
    echo 'int main(void) { return 0; }' >"$scratch/nothing.c"
    "$linker" $whole -o "$scratch/nothing" "$scratch/nothing.c" 2>/dev/null
}

# The first rustc that has the standard library for x86-64.
find_rustc() {
    echo 'fn main() {}' >"$scratch/nothing.rs"
    local rustc
    for rustc in ${RUSTC:+"$RUSTC"} $(type -ap rustc); do
        if "$rustc" --target "$target" -C linker="$linker" -o "$scratch/nothing-rust" "$scratch/nothing.rs" 2>/dev/null; then
            export RUSTC=$rustc
            [ ! -x "${rustc%rustc}rustdoc" ] || export RUSTDOC=${rustc%rustc}rustdoc
            return 0
        fi
    done
    return 1
}
