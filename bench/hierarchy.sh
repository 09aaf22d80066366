#!/usr/bin/env bash
# Times the definition of classes and the questions about them, beside a JVM that defines the same class files.
#
#     bench/hierarchy.sh PROGRAM [SHAPE COUNT]      PROGRAM is the built crates/bench; the shapes are those of Hierarchy.java
#
# JAVA_HOME chooses the JDK (else java of the PATH). Without a shape it is `tree 30000`. MEMORY is how many kilobytes of address
# space the program may have (no limit), JVM=0 leaves the JVM out. Ends with status 0 only where both find the same.
set -eu
here=$(cd "$(dirname "$0")" && pwd)
. "$here/common.sh"

if [ $# != 1 ] && [ $# != 3 ]; then usage; fi
take_program "$1"
shape=${2:-tree}
count=${3:-30000}

run_java Hierarchy lines "$shape" "$count" > "$work/lines"
(
    ulimit -v "${MEMORY:-unlimited}"
    "$program" hierarchy < "$work/lines" | tee "$work/ours"
)
if [ "${JVM:-1}" = 1 ]; then
    java -version 2>&1 | sed -n 2p
    run_java Hierarchy jvm "$shape" "$count" | tee "$work/theirs"
    # A JVM copies no classes, and reads none alone.
    awk '/^read and defined / { classes += $4 } /^found/ { print "classes", classes } /^(found|related) /' "$work/ours" | cmp - "$work/theirs"
fi
