#!/bin/sh
# Builds the machine as examples/vm/out/vm.
#
#     examples/vm/build.sh [OUT]
#
# OUT is another folder for what is built. It takes the library as tools/library.sh does: LINKD_ARCHIVE may name an archive. CC and CFLAGS
# are looked at, and VM_SOURCES, another folder of the sources.
set -eu
here=$(cd "$(dirname "$0")" && pwd)
top=$(cd "$here/../.." && pwd)
out=${1:-$here/out}
sources=${VM_SOURCES:-$here}
mkdir -p "$out"
"$top/tools/library.sh" "$out"
for file in "$sources"/*.c; do
    ${CC:-cc} -std=c11 -D_GNU_SOURCE -O2 -fno-strict-aliasing -Wall -Wextra -Werror ${CFLAGS:-} -I"$top/include" \
        -c "$file" -o "$out/$(basename "$file" .c).o"
done
${CC:-cc} ${CFLAGS:-} -o "$out/vm" "$out"/*.o "$out/liblinkd.a" -lm -pthread
