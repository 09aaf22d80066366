#!/usr/bin/env bash
# Puts the program, its page for man, the header, the library and its description for pkg-config below a folder.
#
#     tools/install.sh PREFIX
#     tools/install.sh --library PREFIX   all but the program and its page
#
#     PREFIX/bin/linkd                    crates/linkd/out/linkd, which `rt run` in crates/linkd makes
#     PREFIX/share/man/man1/linkd.1       its page for man
#     PREFIX/include/linkd.h
#     PREFIX/lib/liblinkd.a, liblinkd.so
#     PREFIX/lib/pkgconfig/linkd.pc
#
# It needs what tools/library.sh needs. Where something isn't built it says what makes it, installs nothing, and ends with status 2. A
# host is then built by
#
#     cc -o host host.c $(PKG_CONFIG_PATH=PREFIX/lib/pkgconfig pkg-config --cflags --libs linkd)
#
# and finds the shared library where it was installed, by its rpath.
set -eu
top=$(cd "$(dirname "$0")/.." && pwd)
program="$top/crates/linkd/out/linkd"
if [ "${1:-}" = --library ]; then
    program=
    shift
fi
if [ $# != 1 ] || [ -z "$1" ] || [ "${1#-}" != "$1" ]; then
    echo "install.sh: PREFIX, or --library PREFIX" >&2
    exit 2
fi
if [ -n "$program" ] && { [ ! -f "$program" ] || [ ! -x "$program" ]; }; then
    echo "there is no program $program: run \`rt run\` in crates/linkd, or give --library to install all but the program" >&2
    exit 2
fi
room=$(mktemp -d)
trap 'rm -rf "$room"' EXIT
"$top/tools/library.sh" "$room"
mkdir -p "$1/include" "$1/lib/pkgconfig"
prefix=$(cd "$1" && pwd)
install -m 644 "$room/liblinkd.a" "$prefix/lib/liblinkd.a"
install -m 755 "$room/liblinkd.so" "$prefix/lib/liblinkd.so"
install -m 644 "$top/include/linkd.h" "$prefix/include/linkd.h"
cat > "$prefix/lib/pkgconfig/linkd.pc" <<PC
prefix=$prefix
libdir=\${prefix}/lib
includedir=\${prefix}/include

Name: linkd
Description: Which method does this JVM call run, now? A proved devirtualizing linker
Version: 0.1.0
Cflags: -I"\${includedir}"
Libs: -L"\${libdir}" -Wl,-rpath,"\${libdir}" -llinkd
PC
if [ -n "$program" ]; then
    mkdir -p "$prefix/bin" "$prefix/share/man/man1"
    install -m 755 "$program" "$prefix/bin/linkd"
    install -m 644 "$top/docs/linkd.1" "$prefix/share/man/man1/linkd.1"
fi
