#!/usr/bin/env bash
# Copies of all classes of the JDK, and definitions with snapshots between them.
#
#     bench/snapshots.sh PROGRAM      PROGRAM is the built crates/bench
#
# JAVA_HOME chooses the JDK (else java of the PATH). KEEP=DIR keeps the class files there, a line of hexadecimal each.
set -eu
here=$(cd "$(dirname "$0")" && pwd)
. "$here/common.sh"
if [ $# != 1 ]; then usage; fi
take_program "$1"
data=${KEEP:-$work}
mkdir -p "$data"
run_java Links lines "$data" > /dev/null
echo "== 64 copies of all classes, each let go"
"$program" hierarchy < "$data/ordered.hex" 2>&1 | grep ' copies in '
echo "== definitions, 200 of each"
"$program" snapshot < "$data/ordered.hex" 2>&1
