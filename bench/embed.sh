#!/usr/bin/env bash
# Tries the library for C: its archive beside its header, and hosts in C, C++ and Rust over classes that javac makes.
#
#     bench/embed.sh
#
# It builds the archive first, by `rt lib` in crates/linkd_c, unless LINKD_ARCHIVE names one. It needs rt, cc, c++, ar, nm, cargo,
# valgrind, and java and javac of JAVA_HOME or else of the PATH, of version 17 to 25. ROUNDS (200) is how often the host in C plays its
# round, COMPILED (40) how often the one that compiles does, RENEWED (200) how often the one that renews does, and STEPPED (40) how often the
# one that renews in steps does. A sanitizer that cc doesn't have, or whose programs don't run here, is said and left out. It ends with status
# 0 only where all is as it must be.
set -eu
top=$(cd "$(dirname "$0")/.." && pwd)
export LC_ALL=C
if [ -n "${JAVA_HOME:-}" ]; then
    PATH="$JAVA_HOME/bin:$PATH"
fi
work=$(mktemp -d)
trap 'rm -rf "$work"' EXIT
trap 'exit 130' INT TERM
also="c++ cargo valgrind java javac"
. "$top/bench/library.sh"
host="$top/examples/host"

echo "== the functions of the header, and those of the archive"
sed -nE '/^static /!s/^[a-z][a-z0-9_ ]* (linkd_[a-z_]*)\(.*/\1/p' "$top/include/linkd.h" | sort > "$work/declared"
nm --defined-only -g "$work/liblinkd.a" | awk '$2 ~ /^[TW]$/ && $3 ~ /^linkd_/ { print $3 }' | sort > "$work/exported"
diff "$work/declared" "$work/exported"
test -s "$work/declared"

echo "== the header as C99, C11, C++98, C++11 and C++17, beside the sources"
"$top/bench/header.py"
# A switch that leaves a status out gets a warning.
printf '#include "linkd.h"\nint is_done(linkd_status is) { switch (is) { case LINKD_DONE: return 1; } return 0; }\n' > "$work/less.c"
for compiler in "cc -std=c11" "c++ -std=c++11 -x c++"; do
    if $compiler -Wall -Werror -fsyntax-only -I"$top/include" "$work/less.c" 2> "$work/warned.txt"; then
        echo "$compiler takes a switch that leaves statuses out" >&2
        exit 1
    fi
    grep -q LINKD_RELEASED "$work/warned.txt"
done

echo "== each call, with its refusals"
build_c "$work/statuses" "$top/bench/statuses.c"
"$work/statuses"
valgrind -q --leak-check=full --error-exitcode=99 "$work/statuses"

echo "== the first program"
build_c "$work/first" "$host/first.c"
valgrind -q --leak-check=full --error-exitcode=99 "$work/first" | tee "$work/told.txt"
diff "$work/told.txt" - <<'TOLD'
on a B the method of A runs
after C's definition 1 link is gone
on a B the method of A runs
on a C the method of C runs
TOLD

echo "== the classes, and java/lang/Object of this JDK"
mkdir "$work/classes"
javac --release 17 -Xlint:all -d "$work/classes" "$host"/java/*.java
cat > "$work/Take.java" <<'JAVA'
import java.io.InputStream;
import java.nio.file.Files;
import java.nio.file.Path;

class Take {
    public static void main(String[] words) throws Exception {
        try (InputStream from = Object.class.getResourceAsStream("Object.class")) {
            Files.copy(from, Path.of(words[0]));
        }
    }
}
JAVA
java "$work/Take.java" "$work/classes/Object.class"
java -cp "$work/classes" Main
cp -r "$work/classes" "$work/compiled"
javac --release 17 -Xlint:all -cp "$work/classes" -d "$work/compiled" "$host"/dynamic/*.java

echo "== a made class that calls a private method"
mkdir "$work/nest"
javac --release 17 -Xlint:all -d "$work/nest" "$host"/nest/*.java
cp "$work/classes/Object.class" "$work/nest"
build_c "$work/nest_c" "$host/nest.c"
for words in "Adder Adder" 'Adder Adder$Twice' "Doubler Doubler"; do
    valgrind -q --leak-check=full --error-exitcode=99 "$work/nest_c" "$work/nest" $words
done | tee "$work/told.txt"
diff "$work/told.txt" - <<'TOLD'
Adder as its file is: IllegalAccessError
Adder with Adder$$Made$0 in its NestMembers: Adder.lambda$one$0 runs
Adder as its file is: IllegalAccessError
Adder with Adder$Twice$$Made$0 in its NestMembers: Adder$Twice.lambda$two$0 runs
Doubler as its file is: IllegalAccessError
Doubler with Doubler$$Made$0 in its NestMembers: Doubler.lambda$doubler$0 runs
TOLD

echo "== calls that no code makes"
mkdir "$work/calls"
javac --release 17 -Xlint:all -d "$work/calls" "$host"/calls/*.java "$host"/calls/other/*.java
cp "$work/classes/Object.class" "$work/calls"
build_c "$work/calls_c" "$host/calls.c"
valgrind -q --leak-check=full --error-exitcode=99 "$work/calls_c" "$work/calls" | tee "$work/told.txt"
# Worked out by hand: 5.4.3.3, 5.4.3.4, 5.4.4, 5.4.5, 5.4.6 and 6.5 of the Java Virtual Machine Specification, SE 17.
diff "$work/told.txt" - <<'TOLD'
no bytes: LINKD_TRUNCATED
Caller without its last byte: LINKD_TRUNCATED
Caller with another first byte: LINKD_BAD_MAGIC
Caller: a class file
Caller.call waits for Animal
Caller.call calls Animal.name
links that the definition of Dog removes: 1
Caller.call calls Animal -> Animal.name, Dog -> Dog.name
Caller names Animal.name: Animal.name
Caller names Dog.count: Animal.count
Caller names Animal.secret: IllegalAccessError, Animal.secret
Caller names Dog.kept: Animal.kept
other/Stranger names Animal.kept: IllegalAccessError, Animal.kept
other/Stranger names Dog.name: IllegalAccessError, Dog.name
Caller names Speaker.speak: Speaker.speak
Caller names Speaker.hashCode: java/lang/Object.hashCode
Caller names Animal.name: NoSuchMethodError, none is found
Animal.name on Animal: Animal.name
Animal.name on Dog: Dog.name
Animal.name on Caller: no such receiver
Animal.name on null: NullPointerException
Animal.secret on Dog: Animal.secret
Animal.kept on Dog: Animal.kept
Animal.count on null: Animal.count
Animal.<init> on Dog: Animal.<init>
Speaker.speak on Dog: Dog.speak
Speaker.speak on Speaker: no such receiver
Caller may name Dog
other/Stranger may not name Dog
other/Stranger may name java/lang/Object
TOLD

echo "== the hosts in C"
build_c "$work/host_c" "$host/host.c"
"$work/host_c" "$work/classes" Triangle "${ROUNDS:-200}"
build_c "$work/compilers" "$host/compilers.c"
"$work/compilers" "$work/compiled" "${COMPILED:-40}"
build_c "$work/renewing" "$host/renewing.c"
"$work/renewing" "$work/classes" "${RENEWED:-200}"
build_c "$work/stepping" "$host/stepping.c"
"$work/stepping" "$work/compiled" "${STEPPED:-40}"

echo "== the hosts in C, under valgrind"
under_valgrind() {
    valgrind -q --fair-sched=try --leak-check=full --show-leak-kinds=all --errors-for-leak-kinds=all --error-exitcode=99 "$@" \
        > "$work/under.txt"
    tail -n 1 "$work/under.txt"
}
under_valgrind "$work/host_c" "$work/classes" Triangle 4
under_valgrind "$work/compilers" "$work/compiled" 4
under_valgrind "$work/renewing" "$work/classes" 20
under_valgrind "$work/stepping" "$work/compiled" 2

# The archive isn't built with them: they see the hosts, what these lend, and what is taken from malloc. Nor is the count seen by which
# views, renewals and linkers share what they have, so that the thread sanitizer takes the free of the last one for a race with the others' reads.
echo 'race:*::drop' > "$work/shared.txt"
export TSAN_OPTIONS="suppressions=$work/shared.txt print_suppressions=0"
for sanitizers in address,undefined thread; do
    echo "== the hosts in C, by -fsanitize=$sanitizers"
    sanitize="-fsanitize=$sanitizers -fno-sanitize-recover=all"
    echo 'int main(void) { return 0; }' > "$work/nothing.c"
    if ! cc $sanitize -o "$work/nothing" "$work/nothing.c" 2> "$work/under.txt" || ! "$work/nothing" 2> "$work/under.txt"; then
        echo "left out: cc hasn't it, or its programs don't run here"
        continue
    fi
    for program in host compilers renewing stepping; do
        cc -std=c11 -O1 -g -Wall -Wextra -Werror $sanitize -pthread -I"$top/include" -o "$work/sanitized_$program" "$host/$program.c" \
            "$work/liblinkd.a"
    done
    "$work/sanitized_host" "$work/classes" Triangle 10 > "$work/under.txt"
    tail -n 1 "$work/under.txt"
    "$work/sanitized_compilers" "$work/compiled" 10 > "$work/under.txt"
    tail -n 1 "$work/under.txt"
    "$work/sanitized_renewing" "$work/classes" 30 > "$work/under.txt"
    tail -n 1 "$work/under.txt"
    "$work/sanitized_stepping" "$work/compiled" 10 > "$work/under.txt"
    tail -n 1 "$work/under.txt"
done

echo "== the hosts in C++ and in Rust, which say the same"
c++ -std=c++11 -O2 -Wall -Wextra -Werror -I"$top/include" -o "$work/host_cpp" "$host/host.cpp" "$work/liblinkd.a"
LINKD_ARCHIVE="$work/liblinkd.a" RUSTFLAGS="-D warnings" CARGO_TARGET_DIR="$work/target" \
    cargo build --quiet --offline --locked --release --example host --manifest-path "$top/bindings/rust/Cargo.toml"
cp "$work/target/release/examples/host" "$work/host_rs"
files=
for name in Object Measured Shape Circle Square Triangle Main; do
    files="$files $work/classes/$name.class"
done
# The invokeinterface of area, and the invokevirtual of doubled.
for method in 1 2; do
    "$work/host_cpp" $method 1 $files > "$work/by_cpp.txt"
    "$work/host_rs" $method 1 $files > "$work/by_rs.txt"
    cat "$work/by_cpp.txt"
    diff "$work/by_cpp.txt" "$work/by_rs.txt"
done
valgrind -q --leak-check=full --error-exitcode=99 "$work/host_cpp" 1 1 $files > "$work/under.txt"
diff "$work/under.txt" <("$work/host_rs" 1 1 $files)
# A refusal ends both by its name, and leaves nothing behind.
echo "no class file" > "$work/No.class"
refused() {
    local by_cpp=$1 by_rs=$2 status
    shift 2
    for program in cpp rs; do
        status=0
        valgrind -q --leak-check=full --error-exitcode=99 "$work/host_$program" "$@" > "$work/refused.txt" 2>&1 || status=$?
        local name=by_$program
        if [ $status != 1 ] || ! grep -q "${!name}" "$work/refused.txt"; then
            cat "$work/refused.txt" >&2
            echo "host.$program: status $status, wanted 1 and: ${!name}" >&2
            exit 1
        fi
    done
}
refused LINKD_NO_SUCH_PLACE "the class has no such method, or no invocation there" 1 0 $files
refused "nowhere: can't be read" "nowhere: No such file" 1 1 "$work/nowhere"
refused "No.class: LINKD_BAD_MAGIC" "No.class: no class file: it has no magic number" 1 1 "$work/No.class"
refused "Square.class: LINKD_MISSING_PARENT" "Square.class: the class isn't defined: a parent is missing" 1 1 "$work/classes/Square.class"
echo "all as it must be"
