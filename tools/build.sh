#!/bin/sh
# Proves the calls and the two programs, and writes target/staticlib/libexports.a, target/bin/listing and target/bin/cases.
# With names (exports, listing, cases) it makes these alone.
set -e
cd "$(dirname "$0")/.."
mkdir -p target/staticlib target/bin
for name in ${*:-exports listing cases}; do
    case $name in
    exports)
        (cd crates/exports_c && rt lib)
        cp crates/exports_c/out/libexports_c.a target/staticlib/libexports.a
        ;;
    *)
        (cd "crates/$name" && rt run < stdin > /dev/null)
        cp "crates/$name/out/$name" "target/bin/$name"
        ;;
    esac
done
