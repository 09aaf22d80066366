#!/usr/bin/env bash
# Measures what a call costs from C, from Rust and from Java, at a seat and on a linker, by one invokeinterface with a table of three classes.
#
#     bench/bindings.sh
#
# It needs what tools/library.sh, bindings/rust and bindings/java need. It prints nanoseconds a call, the best of seven turns, and the ratio to C.
# It ends with status 0 only where all three were answered the same.
set -eu
top=$(cd "$(dirname "$0")/.." && pwd)
export LC_ALL=C
work=$(mktemp -d)
trap 'rm -rf "$work"' EXIT
. "$top/bindings/java/jdk.sh"
"$top/tools/library.sh" "$work"
"$top/bindings/java/build.sh"
export LINKD_LIBRARY="$top/bindings/java/out/liblinkd.so"
javac --release 17 -d "$work/classes" "$top"/examples/host/java/*.java
javac --release 22 -cp "$top/bindings/java/out/linkd.jar" -d "$work/cost" "$top"/bindings/java/test/linkd/Cost.java
# java/lang/Object without methods, of Java 17.
printf "$(sed 's/../\\x&/g' "$top/examples/object.hex")" > "$work/classes/Object.class"
cc -std=c11 -O2 -Wall -Wextra -Werror -I"$top/include" -o "$work/cost_c" "$top/bench/cost.c" "$work/liblinkd.a"
LINKD_ARCHIVE="$work/liblinkd.a" CARGO_TARGET_DIR="$work/target" \
    cargo build --quiet --offline --locked --release --example cost --manifest-path "$top/bindings/rust/Cargo.toml"
words="1 1 3"
for name in Object Measured Shape Circle Square Triangle Main; do
    words="$words $work/classes/$name.class"
done
"$work/cost_c" $words > "$work/c"
"$work/target/release/examples/cost" $words > "$work/rust"
java --enable-native-access=ALL-UNNAMED -cp "$top/bindings/java/out/linkd.jar:$work/cost" linkd.Cost $words > "$work/java"
read -r seat linker sum < "$work/c"
for language in c rust java; do
    awk -v name=$language -v seat="$seat" -v linker="$linker" -v sum="$sum" '
        { printf "%-5s seat %7.2f ns (%.2f)  linker %7.2f ns (%.2f)\n", name, $1, $1 / seat, $2, $2 / linker; exit $3 != sum }
    ' "$work/$language"
done
