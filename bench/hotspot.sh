#!/usr/bin/env bash
# Runs each row of docs/HOTSPOT.md again, in the linker and in a JVM, interpreted and compiled, and compares what comes with the page.
#
#     bench/hotspot.sh PROGRAM       PROGRAM is the built linkd
#
# JAVA_HOME chooses the JDK (else java of the PATH). It has to have ASM inside (17 to 23). JAVA2 is the home of a second JDK, as new as the
# first or newer. It needs no ASM: it runs the class files that the first one has written. The script tells in which rows the second JVM
# answers otherwise than the first, and whether the page says so. Without JAVA2 it says that it looked at no second JVM. It needs python3.
# hotspot.py tells how the page is read. The script ends with status 0 only where each answer is the page's.
set -eu
here=$(cd "$(dirname "$0")" && pwd)
. "$here/common.sh"

if [ $# != 1 ]; then usage; fi
take_program "$1"
if [ "$has_asm" = 0 ]; then
    echo "this JDK has no ASM" >&2
    exit 2
fi
javas=(java)
if [ -n "${JAVA2:-}" ]; then
    [ -x "$JAVA2/bin/java" ] || { echo "no bin/java in JAVA2, $JAVA2" >&2; exit 2; }
    javas+=("$(cd "$JAVA2" && pwd)/bin/java")
fi
python3 "$here/hotspot.py" "$program" "$built" "${javas[@]}"
