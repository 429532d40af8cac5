#!/bin/sh
# The library that build.sh left in out/, called from C, C++, Python and Rust.
#     bindings/test.sh [FILE..]
# FILEs are compound files that Python reads beside olefile. CFB_RANDOM_SECONDS (5) is how long calls are
# made in any order. CFB_ORIGINAL is a folder with the source of the crate cfb 0.16.0, whose tests run over
# the one here. C runs under AddressSanitizer and UBSan, and under valgrind if it is installed.
set -eu
here=$(cd "$(dirname "$0")" && pwd)
room=$(mktemp -d)
trap 'rm -rf "$room"' EXIT
python=${PYTHON:-python3}
flags="-I$here/out/include -Wall -Wextra -Werror"
asan="-g -fsanitize=address,undefined -fno-sanitize-recover=all"
cd "$room"
"$python" "$here/declarations"
${CC:-cc} -std=c11 $asan $flags "$here/c/test.c" "$here/out/lib/libcfb.a" -o c-asan
./c-asan "$room"
${CC:-cc} -std=c11 $flags "$here/c/test.c" -L"$here/out/lib" -lcfb -Wl,-rpath,"$here/out/lib" -o c-shared
if command -v valgrind >/dev/null; then
    valgrind -q --leak-check=full --error-exitcode=9 ./c-shared "$room"
else
    echo "bindings: valgrind is not installed, so leaks are not looked for"
    ./c-shared "$room"
fi
${CC:-cc} -std=c11 -O1 $asan $flags "$here/c/random.c" "$here/out/lib/libcfb.a" -o random
./random "${CFB_RANDOM_SECONDS:-5}"
${CC:-cc} -std=c11 $flags "$here/c/list.c" "$here/out/lib/libcfb.a" -o list
${CXX:-c++} -std=c++17 $asan $flags "$here/c/test.cpp" "$here/out/lib/libcfb.a" -o cpp
./cpp
PYTHONDONTWRITEBYTECODE=1 "$python" "$here/python/test.py" "$room/list" "$@"
if command -v cargo >/dev/null; then
    cp -r "$here/rust" rust
    CFB_LIB_DIR="$here/out/lib" CARGO_TARGET_DIR="$room/target" cargo test -q --offline --manifest-path rust/Cargo.toml
else
    echo "bindings: cargo is not installed, so Rust is not tested"
fi
if [ -n "${CFB_ORIGINAL:-}" ]; then "$here/rust/suite" "$CFB_ORIGINAL"; fi
"$python" "$here/documented"
echo "bindings: all well"
