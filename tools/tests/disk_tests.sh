#!/usr/bin/env bash
if [ "$1" = -h ] || [ "$1" = --help ]; then
    cat <<'END_OF_HELP'
Builds and runs the examples and the tests of a store on a disk, in C (bindings/c/disk) and, where there is `cargo`, in Rust (the feature `disk`), over
libsqlite3 of the system. Where that is missing, it says which package has it, and passes. All is written to standard output.

    tools/tests/disk_tests.sh [ROUNDS]

ROUNDS is how often a process is ended at some moment, by SIGKILL and by a power failure each; 40 without it, or what DISK_ROUNDS says. PREFIX is the folder in
which the library is installed; without it that is bindings/out/prefix, and it is installed there where there is none.

It takes some 25 s of processor time, and with 500 rounds some two minutes.
Example: tools/tests/disk_tests.sh 500
Status 0 where all passed or there is no libsqlite3, 1 where not.
END_OF_HELP
    exit 0
fi
cd "$(dirname "$0")/../.." || exit 1
if ! command -v pkg-config >/dev/null || ! pkg-config --exists sqlite3; then
    echo "no libsqlite3 is found by pkg-config, so no store on a disk is tried: apt-get install pkg-config libsqlite3-dev"
    exit 0
fi
export PREFIX=${PREFIX:-$PWD/bindings/out/prefix}
[ -f "$PREFIX/lib/libgithoppu.a" ] || tools/install "$PREFIX" || exit 1
make -s -C bindings/c/disk run ROUNDS="${1:-${DISK_ROUNDS:-40}}" || exit 1
# as docs/ON_A_DISK.md says it
export PKG_CONFIG_PATH=$PREFIX/lib/pkgconfig${PKG_CONFIG_PATH:+:$PKG_CONFIG_PATH}
if [ -f "$PREFIX/lib/pkgconfig/githoppu.pc" ]; then
    cc -std=c11 $(pkg-config --cflags githoppu sqlite3) bindings/c/shop_on_disk.c $(pkg-config --variable=storesource githoppu) \
        $(pkg-config --variable=archive githoppu) $(pkg-config --libs sqlite3) -pthread -o bindings/c/out/disk/installed_shop || exit 1
    bindings/c/out/disk/installed_shop bindings/c/out/disk/installed 2>/dev/null || exit 1
fi
if command -v cargo >/dev/null; then
    export GITHOPPU_LIBRARY=$PREFIX/lib
    cd bindings/rust || exit 1
    cargo run -q --offline --features disk --example shop_on_disk || exit 1
    cargo test -q --offline --features disk --test disk || exit 1
    cargo test -q --offline --features disk --doc || exit 1
fi
