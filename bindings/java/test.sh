#!/usr/bin/env bash
# Builds the library for Java, tests it, and links classes by its program, good and bad ones.
#
#     bindings/java/test.sh
#
# It needs what bindings/java/build.sh needs, with a JDK up to 25, whose classes it defines. It ends with status 0 only where all is as it must
# be.
set -eu
here=$(cd "$(dirname "$0")" && pwd)
. "$here/jdk.sh"
"$here/build.sh"
work=$(mktemp -d)
trap 'rm -rf "$work"' EXIT
jar=$here/out/linkd.jar
unset LINKD_LIBRARY # it is beside the jar

echo "== tests"
javac --release 22 -Xlint:all -Werror -cp "$jar" -d "$work/tests" "$here"/test/linkd/*.java
java -Xcheck:jni --enable-native-access=ALL-UNNAMED -cp "$jar:$work/tests" linkd.Tests

echo "== the classes of examples/host, linked"
javac --release 17 -d "$work/classes" "$here"/../../examples/host/java/*.java
java -jar "$jar" "$work/classes" | tee "$work/told"
# Counted by hand in the sources, with the constructors: Triangle overrides doubled and area, so that two calls by invokevirtual and the one
# by invokeinterface look at the receiver; Circle has no subclass.
awk 'NR > 2 { print $(NF - 5), $(NF - 4), $(NF - 3), $(NF - 2), $(NF - 1), $NF }' "$work/told" > "$work/counts"
diff "$work/counts" - <<COUNTS
1 10 6 0 0 17
0 0 0 0 0 0
2 0 0 1 0 3
0 0 0 0 0 0
0 0 0 0 0 0
0 0 0 0 0 0
COUNTS

echo "== what a bad input gets"
gets() {
    local wanted=$1 status=0
    shift
    java -jar "$jar" "$@" > "$work/said" 2>&1 || status=$?
    cat "$work/said"
    if [ $status != 1 ] || ! grep -q "$wanted" "$work/said"; then
        echo "status $status, wanted 1 and: $wanted" >&2
        exit 1
    fi
}
gets "there is no $work/nowhere" "$work/nowhere"
echo "no class file" > "$work/No.class"
gets "No.class: NoClassFile\[fault=BAD_MAGIC" "$work/No.class"
gets "Square: Define\[fault=MISSING_PARENT\]" "$work/classes/Square.class"
LINKD_LIBRARY="$work/nowhere.so" gets "there is no $work/nowhere.so" "$work/classes"
LINKD_LIBRARY="$work/No.class" gets "No.class is no shared library" "$work/classes"
echo 'unsigned linkd_version(void) { return 0; }' > "$work/old.c"
cc -shared -fPIC -o "$work/old.so" "$work/old.c"
LINKD_LIBRARY="$work/old.so" gets "old.so is of version 0 of linkd.h, and this jar" "$work/classes"
cp "$jar" "$work/alone.jar"
jar=$work/alone.jar gets "there is no $work/liblinkd.so" "$work/classes"
echo "all as it must be"
