#!/usr/bin/env bash
# Builds the library for Java: out/liblinkd.so and out/linkd.jar.
#
#     bindings/java/build.sh
#
# It needs what tools/library.sh needs, and a JDK of version 22 or later, which jdk.sh beside it looks for.
set -eu
here=$(cd "$(dirname "$0")" && pwd)
. "$here/jdk.sh"
"$here/../../tools/library.sh" "$here/out"
rm -rf "$here/out/classes"
javac --release 22 -Xlint:all -Werror -d "$here/out/classes" "$here"/src/linkd/*.java
printf 'Main-Class: linkd.Main\nEnable-Native-Access: ALL-UNNAMED\n' > "$here/out/manifest"
jar --create --file "$here/out/linkd.jar" --manifest "$here/out/manifest" -C "$here/out/classes" .
