#!/usr/bin/env bash
# Builds the C programs of the tests and the example, with the archive that 'rt lib' made in crates/host, into target/client.
# The archive is for x86-64, so elsewhere they are cross-compiled, and the tests run them by qemu-x86_64.
set -euo pipefail
cd "$(dirname "$(readlink -f "$0")")/.."

fail() {
    echo "build-client: $*" >&2
    exit 1
}

rm -rf target/client
archive=crates/host/out/libhost.a
[ -f "$archive" ] || fail "there is no $archive: 'rt lib' in crates/host makes it"
case $(uname -m) in
    x86_64) compile=(cc '-Wl,-z,now') ;;
    *) compile=(x86_64-linux-gnu-gcc -static) ;;
esac
command -v "${compile[0]}" >/dev/null || fail "there is no ${compile[0]}"

mkdir -p target/client
for source in tests/client.c tests/stack.c examples/instrument.c; do
    name=$(basename "$source" .c)
    "${compile[@]}" -std=c11 -O1 -Wall -Wextra -Wconversion -Werror -Iinclude -o "target/client/$name" "$source" "$archive"
done
