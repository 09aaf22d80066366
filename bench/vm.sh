#!/usr/bin/env bash
# Runs programs on the JVM of examples/vm and on HotSpot, and compares what they print, their statuses and the class files that they write.
#
#     bench/vm.sh [--quick]
#
# --quick takes about two minutes. Without it the longer programs run in each mode, javac compiles all programs on the machine, and their times
# are told beside `java -Xint`. Also compared: a program that makes and drops 2,000 loaders, whose memory has to stay; runs of threads under
# ThreadSanitizer and of all else under AddressSanitizer; and five planted mistakes, each of which has to be found. It wants a JDK 17, of
# JAVA_HOME or else of the PATH. A status other than 0 says that something differs.
set -eu
here=$(cd "$(dirname "$0")" && pwd)
top=$(dirname "$here")
quick=
case "$*" in
    '') ;;
    --quick) quick=1 ;;
    *)
        sed -n '2,/^set/{/^#/s/^# \{0,1\}//p;}' "$0" >&2
        exit 2
        ;;
esac
export LC_ALL=C.UTF-8
if [ -n "${JAVA_HOME:-}" ]; then
    PATH="$JAVA_HOME/bin:$PATH"
fi
work=$(mktemp -d)
trap 'rm -rf "$work"' EXIT
trap 'exit 130' INT TERM
also='java javac'
. "$here/library.sh"
if ! java -version 2>&1 | head -n 1 | grep -q '"17'; then
    echo "vm.sh: the java is no Java 17: set JAVA_HOME" >&2
    exit 2
fi
sources="$top/examples/vm"
classes="$work/classes"
bad=0

# Builds the machine of $sources in this folder, with these flags.
build_vm() {
    LINKD_ARCHIVE="$work/liblinkd.a" CFLAGS="${2:-}" "$sources/build.sh" "$1"
}

differs() {
    echo "DIFFERS: $*"
    bad=1
}

# Runs a program on HotSpot, once for all modes: NAME [ARGUMENTS..].
expect() {
    expected="$work/expected/$(echo "$*" | tr -c 'A-Za-z0-9\n' _)"
    if [ ! -f "$expected.status" ]; then
        status=0
        java -Dfile.encoding=UTF-8 -cp "$classes" "$@" > "$expected.out" 2> "$expected.errors" || status=$?
        echo "$status" > "$expected.status"
    fi
}

# Whether the program prints and ends on the machine as on HotSpot, with these options: VM OPTIONS NAME [ARGUMENTS..].
same() {
    machine=$1 options=$2
    shift 2
    expect "$@"
    status=0
    # shellcheck disable=SC2086
    { timeout 300 "$machine" $options -cp "$classes" "$@" || status=$?; } > "$work/out" 2> "$work/errors"
    [ "$status" = "$(cat "$expected.status")" ] && cmp -s "$work/out" "$expected.out"
}

# The same of several programs: VM OPTIONS NAME..
all_same() {
    machine=$1 options=$2
    shift 2
    for name in "$@"; do
        if ! same "$machine" "$options" "$name"; then
            differs "$name $options, status $status"
            diff "$expected.out" "$work/out" | head -n 5 || true
            head -n 5 "$work/errors"
        fi
    done
    echo "$# programs${options:+ with $options}"
}

echo "== build"
build_vm "$work/vm"
vm="$work/vm/vm"
mkdir "$classes" "$work/expected"
javac -proc:none -d "$classes" "$sources"/programs/*.java

short="CallSites Containers Cycle Defining Formats HelloWorld Language Late LinkageErrors Loaders Parts Pools Proxies Reflective Selecting Streams
    Switching Threads Unload Weak"
long="Calculator Calls Maps Sorting"
if [ -n "$quick" ]; then
    programs="$short"
else
    programs="$short $long"
fi

echo "== programs beside java"
# shellcheck disable=SC2086
for options in "" "--seat" "--check" "--eager --check" "-Xmx64m --seat --check --collect-every 1000 --poison --renew-every 3"; do
    all_same "$vm" "$options" $programs
done
for how in "" throw exit; do
    # shellcheck disable=SC2086
    same "$vm" "" Ends $how || differs "Ends $how, status $status"
    cmp -s "$work/errors" "$expected.errors" || differs "Ends $how: $(diff "$expected.errors" "$work/errors" | head -n 3)"
done
all_same "$vm" "" NoSuchClass

echo "== javac and javap on the machine"
# Compiles on both and compares: OPTIONS SOURCE..
compile() {
    options=$1
    shift
    rm -rf "$work/by_java" "$work/by_vm"
    mkdir "$work/by_java" "$work/by_vm"
    javac -proc:none -nowarn -d "$work/by_java" "$@" 2> "$work/errors"
    # shellcheck disable=SC2086
    "$vm" $options com.sun.tools.javac.Main -proc:none -nowarn -d "$work/by_vm" "$@" 2> "$work/errors" || differs "javac: $(head -n 3 "$work/errors")"
    diff -r "$work/by_java" "$work/by_vm" || differs "class files"
    echo "$(find "$work/by_vm" -name '*.class' | wc -l) class files${options:+ with $options}"
}
compile "" "$sources/programs/HelloWorld.java"
compile "--seat" "$sources/programs/HelloWorld.java"
java com.sun.tools.javap.Main -c -p "$classes/CallSites.class" > "$work/javap"
"$vm" com.sun.tools.javap.Main -c -p "$classes/CallSites.class" > "$work/out" 2> "$work/errors" || differs "javap: $(head -n 3 "$work/errors")"
diff "$work/javap" "$work/out" > "$work/diff" || differs "javap: $(head -n 3 "$work/diff")"
echo "$(wc -l < "$work/out") lines of javap"
if [ -z "$quick" ]; then
    compile "" "$sources"/programs/*.java
    compile "--check" "$sources/programs/Late.java" "$sources/programs/Streams.java"
fi

echo "== 2,000 loaders come and go"
same "$vm" "-Xmx64m --most-loaders 300 --trace-collections --stats" Unload 2000 || differs "Unload 2000, status $status"
awk '/^vm: collection / { count++; resident[count] = $10 }
    END {
        for (i = 3; i <= count; i++) {
            if (i <= count / 2 && resident[i] > early) early = resident[i]
            if (i > count / 2 && resident[i] > late) late = resident[i]
        }
        printf "%d collections, at most %s MB resident in the first half of them and %s MB in the second\n", count, early, late
        exit !(count >= 8 && early > 0 && late <= 1.1 * early)
    }' "$work/errors" || differs "memory grows"
awk '/^vm: loaders retired / { retired = $4 }
    /^vm: renewals  / { renewals = $3 }
    END { printf "%d loaders retired, %d renewals\n", retired, renewals; exit !(retired >= 1900 && renewals >= 5) }' "$work/errors" ||
    differs "loaders stay"

echo "== numbers run short"
same "$vm" "--check --most-loaders 60 --most-classes 900 --most-sites 9000 --most-call-sites 300" Unload 300 || differs "Unload 300, status $status"
same "$vm" "--seat --most-classes 900 --most-switch-points 2" CallSites || differs "CallSites, status $status"
if same "$vm" "--most-classes 300" Streams || [ "$status" -gt 3 ] || ! grep -q OutOfMemoryError "$work/errors"; then
    differs "300 classes, status $status: $(head -n 3 "$work/errors")"
fi

echo "== the command line"
# What it refuses: MESSAGE WORDS..
refuses() {
    message=$1
    shift
    status=0
    "$vm" "$@" > "$work/out" 2> "$work/errors" || status=$?
    [ "$status" = 2 ] && grep -q -e "$message" "$work/errors" || differs "$*: status $status, $(head -n 1 "$work/errors")"
}
touch "$work/a.jar"
refuses "unpack it" -jar "$work/a.jar"
refuses "is no folder" -cp "$classes:$work/a.jar" HelloWorld
refuses "no modules" -m java.base/java.lang.Object
refuses "unknown" --no-such-option HelloWorld
refuses "a number" --patience x HelloWorld
refuses "1 to 1048576" --most-sites 0 HelloWorld
refuses "lib/modules" --jdk "$work" HelloWorld
refuses "usage"

if [ -n "${CC:-}" ] && ! "$CC" --version | grep -q gcc; then
    echo "== sanitizers: skipped, they are tried with gcc"
else
    echo "== ThreadSanitizer"
    build_vm "$work/threads" "-g -O1 -fsanitize=thread -Wno-tsan"
    export TSAN_OPTIONS=halt_on_error=1
    all_same "$work/threads/vm" "-Xmx64m" Threads Pools Defining Switching
    all_same "$work/threads/vm" "-Xmx64m --seat" Defining Switching
    all_same "$work/threads/vm" "-Xmx64m --collect-every 5000 --poison --renew-every 2" Defining Switching
    # shellcheck disable=SC2086
    [ -n "$quick" ] || all_same "$work/threads/vm" "-Xmx256m --check" $short
    echo "== AddressSanitizer"
    undefined=,undefined\ -fno-sanitize=alignment,shift\ -fno-sanitize-recover=undefined
    build_vm "$work/addresses" "-g -O1 -fsanitize=address$([ -n "$quick" ] || echo "$undefined")"
    export ASAN_OPTIONS=detect_leaks=0:detect_stack_use_after_return=0
    # shellcheck disable=SC2086
    all_same "$work/addresses/vm" "-Xmx256m --collect-every 20000" $short
fi

echo "== planted mistakes"
# A mistake in a copy of a file has to be found by an output or by --check: WHAT FILE EDIT OPTIONS NAME [ARGUMENTS..].
mistake() {
    what=$1 file=$2 edit=$3 with=$4
    shift 4
    rm -rf "$work/wrong"
    cp -r "$work/vm" "$work/wrong"
    sed "$edit" "$sources/$file.c" > "$work/wrong/$file.c"
    if cmp -s "$sources/$file.c" "$work/wrong/$file.c"; then
        differs "$what: nothing is edited"
        return
    fi
    cc -std=c11 -D_GNU_SOURCE -O1 -fno-strict-aliasing -I"$top/include" -I"$sources" -c "$work/wrong/$file.c" -o "$work/wrong/$file.o"
    cc -o "$work/wrong/vm" "$work/wrong"/*.o "$work/liblinkd.a" -lm -pthread
    same "$vm" "$with" "$@" || differs "$what: found without the mistake"
    found=
    ! same "$work/wrong/vm" "$with" "$@" && found="by what $1 prints"
    if ! same "$work/wrong/vm" "$with --check" "$@" && grep -q '^vm: DIFFERS' "$work/errors"; then
        found="${found:+$found, }by --check"
    fi
    [ -n "$found" ] || differs "$what: not found"
    echo "$what: found $found"
}
mistake "dropped sites are kept" link 's/^        drop(site);$//' "" Late
mistake "a memo outlives the classes of its loaders" unload '/linkd_memo_close/d; /must(linkd_memo_open/d' "--renew-every 1 --unload-every 20" Parts 300
mistake "a seat isn't refreshed" link 's/reader->seen < ACQUIRE(must_see) || //' "--seat --patience 1" CallSites
mistake "a method is selected by its own class" link 's/receiver ? receiver->cls->number : LINKD_NULL;/receiver ? method->cls->number : LINKD_NULL;/' "" Selecting
mistake "the receiver's class is off by one" link 's/return args\[0\].a->cls->number;/return args[0].a->cls->number + 1;/' "" Late

if [ -z "$quick" ]; then
    echo "== seconds of processor"
    TIMEFORMAT='%U %S'
    seconds() { { time "$@" > "$work/out" 2> "$work/errors"; } 2>&1 | awk '{ printf "%10.2f", $1 + $2 }'; }
    printf '%-14s %10s %10s %10s\n' program vm 'vm --seat' 'java -Xint'
    for name in $programs; do
        printf '%-14s %s %s %s\n' "$name" "$(seconds "$vm" -cp "$classes" "$name")" "$(seconds "$vm" --seat -cp "$classes" "$name")" \
            "$(seconds java -Xint -cp "$classes" "$name")"
    done
fi
exit $bad
