#!/usr/bin/env bash
# Tries tools/install.sh: a host is built by pkg-config, with the shared library and with the archive, and makes each call of the header.
# Where the program isn't built, nothing is installed but on demand; its page is installed with it alone.
#
#     bench/install.sh
#
# It needs what tools/library.sh needs, and pkg-config. It ends with status 0 only where all is as it must be.
set -eu
top=$(cd "$(dirname "$0")/.." && pwd)
work=$(mktemp -d)
trap 'rm -rf "$work"' EXIT
if ! command -v pkg-config > /dev/null; then
    echo "missing: pkg-config" >&2
    exit 2
fi
prefix="$work/a prefix"
"$top/tools/install.sh" --library "$prefix"
export PKG_CONFIG_PATH="$prefix/lib/pkgconfig"
# pkg-config quotes the blank, as eval wants it.
flags="$(pkg-config --cflags linkd)"
libraries="$(pkg-config --libs linkd)"
eval "cc -std=c11 -O2 -Wall -Wextra -Werror -o '$work/shared' '$top/bench/statuses.c' $flags $libraries"
eval "cc -std=c11 -O2 -Wall -Wextra -Werror -o '$work/static' '$top/bench/statuses.c' $flags '$prefix/lib/liblinkd.a'"
# It finds the library where that was installed.
env -u LD_LIBRARY_PATH "$work/shared"
"$work/static"
nm -D --defined-only "$prefix/lib/liblinkd.so" | awk '{ print $3 }' | sort > "$work/exported"
sed -nE '/^static /!s/^[a-z][a-z0-9_ ]* (linkd_[a-z_]*)\(.*/\1/p' "$prefix/include/linkd.h" | sort > "$work/declared"
diff "$work/declared" "$work/exported"

# A copy of what is installed, with a program that isn't there, and then one in its place.
mkdir -p "$work/copy/crates/linkd/out" "$work/copy/docs"
cp -r "$top/tools" "$top/include" "$work/copy"
cp "$top/docs/linkd.1" "$work/copy/docs"
export LINKD_ARCHIVE="$prefix/lib/liblinkd.a"
refuses() {
    local wanted=$1 status=0
    shift
    "$work/copy/tools/install.sh" "$@" 2> "$work/said.txt" || status=$?
    if [ $status != 2 ] || ! grep -q "$wanted" "$work/said.txt" || [ -e "$work/whole" ]; then
        cat "$work/said.txt" >&2
        echo "install.sh $*: status $status, wanted 2, no folder, and: $wanted" >&2
        exit 1
    fi
}
refuses 'run `rt run` in crates/linkd' "$work/whole"
refuses "PREFIX"
refuses "PREFIX" --libary "$work/whole"
LINKD_ARCHIVE="$work/none.a" refuses 'run `rt lib` in crates/linkd_c' --library "$work/whole"
printf '#!/bin/sh\necho linkd\n' > "$work/copy/crates/linkd/out/linkd"
chmod +x "$work/copy/crates/linkd/out/linkd"
"$work/copy/tools/install.sh" "$work/whole"
[ "$("$work/whole/bin/linkd")" = linkd ]
cmp "$top/docs/linkd.1" "$work/whole/share/man/man1/linkd.1"
[ ! -e "$prefix/bin" ]
[ ! -e "$prefix/share" ]
echo "all as it must be"
