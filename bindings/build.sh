#!/bin/sh
# Builds the library for C, C++, Python and Rust, and lays out/ with libcfb.a, libcfb.so, cfb.h,
# cfb.hpp and cfb-proved.pc, and the library of the Python package.
#     bindings/build.sh [PREFIX]
# PREFIX is where pkg-config will say that the files lie; copy them there by cp -r out/* PREFIX.
# It proves what is not proved yet: an hour or more from nothing, minutes after `rt ci`.
set -eu
here=$(cd "$(dirname "$0")" && pwd)
kit=$(dirname "$(dirname "$(readlink -f "$(command -v rt)")")")
prefix=${1:-$here/out}
crate=$here/../crates/cfb_c
(cd "$crate" && ${RT:-rt} lib)
rm -rf "$here/out"
mkdir -p "$here/out/lib/pkgconfig" "$here/out/include" "$here/out/objects"
cd "$here/out/objects"
ar x "$crate/out/libcfb_c.a"
ar x "$kit/c/liblibc_c.a" heap.pic.o
# The proved calls get names of their own, so that cfb_calls.c can stand before them.
ld -r -o proved.o ./*.o
nm --defined-only --extern-only proved.o | awk '$3 ~ /^cfb_/ { new = $3; sub(/^cfb_/, "cfb_proved_", new); print $3, new }' >names
objcopy --redefine-syms=names proved.o
flags="-O2 -fPIC -Wall -Wextra -Werror -std=c11 -I$here/c"
for file in cfb_calls cfb_files; do ${CC:-cc} $flags -c "$here/c/$file.c" -o "$file.o"; done
# One object, in which nothing but the calls of cfb.h can be seen.
ld -r -o cfb.o proved.o cfb_calls.o cfb_files.o
objcopy --wildcard --keep-global-symbol='cfb_*' --localize-symbol='cfb_proved_*' cfb.o
ar rcs ../lib/libcfb.a cfb.o
${CC:-cc} -shared -Wl,-soname,libcfb.so.0 -Wl,-z,defs -o ../lib/libcfb.so.0 cfb.o
cp ../lib/libcfb.so.0 ../lib/libcfb.so # a copy: rt ci takes no links in the repository
cd ..
rm -r objects
cp "$here/c/cfb.h" "$here/c/cfb.hpp" include/
cat >lib/pkgconfig/cfb-proved.pc <<END
prefix=$prefix
libdir=\${prefix}/lib
includedir=\${prefix}/include

Name: cfb-proved
Description: Compound files (MS-CFB) by a library that is proved
Version: 0.1.0
Libs: -L\${libdir} -lcfb
Cflags: -I\${includedir}
END
cp lib/libcfb.so.0 "$here/python/cfb_proved/"
