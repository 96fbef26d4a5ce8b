# shellcheck shell=bash
# What dist/make and tests/dist/run share: what is written in dist/BUILT.

# sources_hash TOP COMMIT: one hash of all that dist/cif is made of, as that commit of the repository has it
sources_hash() (
    cd "$1" && set -o pipefail &&
        git ls-tree "$2" crates.txt crates/cif_*/src crates/cif_*/specs crates/cif_*/proofs | git hash-object --stdin
)

# changed_sources TOP: those of these files that aren't as they are committed
changed_sources() (
    cd "$1" && git status --porcelain -- crates.txt crates/cif_*/src crates/cif_*/specs crates/cif_*/proofs
)

# stripped FROM TO: copies a program without its names of functions, by the kit's own tool, so that each machine with this kit
# gives the same bytes. The kit's compiler is that tool if it is called by this name.
stripped() (
    exec -a llvm-strip "$(dirname "$(rt doc)")/toolchain/bin/clang" --strip-all -o "$2" "$1"
)

# sha256 FILE
sha256() {
    sha256sum < "$1" | cut -d ' ' -f 1
}
