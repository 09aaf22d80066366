#!/usr/bin/env bash
# Makes liblinkd.a and liblinkd.so of the archive of crates/linkd_c and of the toolchain's C code for the heap.
#
#     tools/library.sh FOLDER
#
# It takes the archive as it stands: the file that LINKD_ARCHIVE names, or else crates/linkd_c/out/liblinkd_c.a, which `rt lib` makes in
# crates/linkd_c. It needs cc, ar and nm, and rt where the archive hasn't the heap in it, as an installed one has.
set -eu
if [ $# != 1 ]; then
    echo "library.sh: FOLDER" >&2
    exit 2
fi
top=$(cd "$(dirname "$0")/.." && pwd)
export LC_ALL=C
archive=${LINKD_ARCHIVE:-$top/crates/linkd_c/out/liblinkd_c.a}
for tool in cc ar nm; do
    if ! command -v $tool > /dev/null; then
        echo "missing: $tool" >&2
        exit 2
    fi
done
if [ ! -f "$archive" ]; then
    echo "there is no $archive: run \`rt lib\` in crates/linkd_c, or set LINKD_ARCHIVE to an installed liblinkd.a" >&2
    exit 2
fi
mkdir -p "$1"
room=$(mktemp -d)
trap 'rm -rf "$room"' EXIT
cp "$archive" "$room/ours.a"
heap=
if ! nm --defined-only "$archive" | grep -q ' T rattle_alloc$'; then
    file="$(dirname "$(rt doc)")/c/liblibc_c.a"
    if [ ! -f "$file" ]; then
        echo "the toolchain has no $file" >&2
        exit 2
    fi
    cp "$file" "$room/heap.a"
    heap='addlib heap.a\n'
fi
(cd "$room" && printf "create liblinkd.a\naddlib ours.a\n${heap}save\nend\n" | ar -M)
# It gives the functions of linkd.h and no others.
echo '{ global: linkd_*; local: *; };' > "$room/exports"
cc -shared -o "$room/liblinkd.so" -Wl,-soname,liblinkd.so -Wl,-z,defs -Wl,--version-script="$room/exports" \
    -Wl,--whole-archive "$room/liblinkd.a" -Wl,--no-whole-archive -lc
cp "$room/liblinkd.a" "$room/liblinkd.so" "$1"
