#!/usr/bin/env bash
# Has `linkd sketch` write the classes of examples/sketches.jsonl, and a JDK list and load them.
#
#     bench/sketches.sh PROGRAM       PROGRAM is the built linkd
#
# JAVA_HOME chooses the JDK (else java of the PATH).
set -eu
here=$(cd "$(dirname "$0")" && pwd)
. "$here/common.sh"

if [ $# != 1 ]; then usage; fi
take_program "$1"

echo "== linkd sketch"
"$program" sketch < "$here/../examples/sketches.jsonl" > "$work/lines.hex"
classes="$work/classes"
mkdir "$classes"
run_java Sketched "$work/lines.hex" "$classes" | tee "$work/written.txt"

echo "== javap"
(cd "$classes" && javap -p -c -s A.class M.class) | tee "$work/javap.txt"
for line in 'public class A {' '  public void f();' 'public class M {' '  public static void run();' 'invokevirtual #12'; do
    grep -qF -- "$line" "$work/javap.txt" || { echo "javap doesn't list: $line" >&2; exit 1; }
done

# The codes of A, M and C would want locals or a stack, which no sketched code has, so a JVM that verifies refuses them.
echo "== a JVM that doesn't verify"
run_java -XX:+UnlockDiagnosticVMOptions -XX:-BytecodeVerificationRemote Sketched --load "$classes" A B M C
