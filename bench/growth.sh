#!/usr/bin/env bash
# Times `linkd scan` on class files made to be slow to read, in growing sizes: the time must grow with the bytes.
#
#     bench/growth.sh PROGRAM [SHAPE..]      PROGRAM is the built linkd; the shapes are named in Shape.java
#
# JAVA_HOME chooses the JDK (else java of the PATH). MB (50) is how many megabytes of lines each run has, LIMIT (60)
# after how many seconds it is stopped, MEMORY (6000000) how many kilobytes of address space the program may have.
# READER=javap has javap read the files where ASM would.
set -eu
here=$(cd "$(dirname "$0")" && pwd)
. "$here/common.sh"

if [ $# = 0 ]; then usage; fi
take_program "$1"
shift

# The limit holds for linkd alone, not for the JVM that starts it.
cat > "$work/limited" <<SH
#!/bin/sh
ulimit -v ${MEMORY:-6000000} 2> /dev/null
exec "\$LINKD" "\$@"
SH
chmod +x "$work/limited"
reader=javap
if [ "$has_asm" = 1 ]; then
    reader=asm
fi
java -version 2>&1 | sed -n 2p
LINKD=$program run_java Growth "$work/limited" "$work" "${MB:-50}" "${LIMIT:-60}" "${READER:-$reader}" "$@"
