# Sourced by the scripts that build the oracle, in its folder: finds the original and the crates that it leans on.
#
#   RUST_SRC   the folder of the original's crates/mysticeti-core/src (default: ../shared/docs/src/.. beside this repository)
#
# cargo and rustc 1.65 or later; Debian packages: librust-{bincode,serde,serde-derive,crc32fast,memmap2,parking-lot,libc,tracing,digest,eyre,rand,zeroize,hex}-dev
src=${RUST_SRC:-$(cd ../../.. && pwd)/shared/docs/src/crates/mysticeti-core/src}
if [ ! -f "$src/wal.rs" ]; then
    echo "$src has no wal.rs: set RUST_SRC to the folder of the original's crates/mysticeti-core/src" >&2
    exit 1
fi
if ! registry=$(dpkg -L librust-bincode-dev 2>/dev/null | grep -m1 '/bincode-1'); then
    echo "librust-bincode-dev is not installed: see the list of packages in tools/oracle/prepare.sh" >&2
    exit 1
fi
ln -sfn "$src" rust
mkdir -p .cargo
cat > .cargo/config.toml <<CONFIG
[source.crates-io]
replace-with = "debian"
[source.debian]
directory = "$(dirname "$registry")"
[net]
offline = true
CONFIG
