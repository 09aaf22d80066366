#!/usr/bin/env bash
# Builds the agent of examples/agent and runs it with `check` over five programs: lambdas and streams, javac that compiles a file, 200 classes
# by 20 loaders, 200 loaders that are dropped one after the other, and a Tomcat that deploys a web application 21 times. Each call is compared
# with what HotSpot runs.
#
#     bench/agent.sh [FOLDER]
#
# It needs what tools/library.sh needs, and java, javac, jar and jvmti.h of one JDK, that of JAVA_HOME or else of java of the PATH. The agent is
# for 11 to 25; the programs want 17. Then all is done once more with the JDK whose home JAVA2 names, if it is set. Tomcat is Debian's
# libtomcat10-java, whose jars are in the folder that TOMCAT names; else apt-get and dpkg-deb fetch it without being root, and install nothing.
# ENTRIES (10000000) is how many method entries are looked at in each. These are all deployments of Tomcat with JDK 17, and 16 of 21 with
# JDK 25. It takes ten minutes a JDK. The reports are left in FOLDER, if it is given, as streams.json, javac.json, loaders.json, dropping.json,
# tomcat.json and others; those of JAVA2 are in FOLDER/second. It ends with status 0 only where no call differs, at least as many were compared
# as stand after each program, and dropped loaders were retired with their classes and sites.
set -eu
top=$(cd "$(dirname "$0")/.." && pwd)
export LC_ALL=C
work=$(mktemp -d)
trap 'rm -rf "$work"' EXIT
trap 'exit 130' INT TERM
reports=${1:-$work}
entries=${ENTRIES:-10000000}
sources="$top/examples/agent"

if [ -n "${JAVA_HOME:-}" ]; then
    home=$JAVA_HOME
else
    home=$(java -XshowSettings:properties -version 2>&1 | sed -n 's/^ *java.home = //p')
fi
for file in "$home/bin/java" "$home/bin/javac" "$home/include/jvmti.h"; do
    if [ ! -f "$file" ]; then
        echo "there is no $file: set JAVA_HOME to a JDK" >&2
        exit 2
    fi
done
version=$("$home/bin/java" -version 2>&1 | sed -nE '1s/.*"([0-9]+).*/\1/p')
if [ "$version" -lt 11 ] || [ "$version" -gt 25 ]; then
    echo "$home is of version $version, and the agent is for 11 to 25" >&2
    exit 2
fi
echo "== $home, of version $version"
mkdir -p "$reports"
"$sources/build.sh" "$work"
agent="$work/liblinkd_agent.so"
"$home/bin/javac" --release 17 -Xlint:all -Werror -d "$work/classes" "$sources"/java/*.java

# Fetches the jars of Tomcat, by lists of its own.
fetch_tomcat() {
    (
        cd "$work"
        mkdir -p lists/partial cache/archives/partial
        options=(-q -o "Dir::State::lists=$work/lists" -o "Dir::Cache=$work/cache" -o "APT::Sandbox::User=$(id -un)")
        apt-get "${options[@]}" update > said
        apt-get "${options[@]}" download libtomcat10-java > said
        dpkg-deb -x libtomcat10-java_*.deb fetched
    )
    tomcat="$work/fetched/usr/share/java"
}

tomcat=${TOMCAT:-}
if [ -z "$tomcat" ]; then fetch_tomcat; fi
jars=
for name in catalina coyote util util-scan juli servlet-api annotations-api jaspic-api api jni; do
    if [ ! -f "$tomcat/tomcat10-$name.jar" ]; then
        echo "there is no $tomcat/tomcat10-$name.jar" >&2
        exit 2
    fi
    jars="$jars:$tomcat/tomcat10-$name.jar"
done
jars=${jars#:}

# The number after a key of the report.
number_of() { sed -nE "s/.*\"$2\":([0-9]+).*/\1/p" "$reports/$1.json"; }

status=0
# What was compared, which has to be so many calls at least, and none that differs.
look_at() {
    local compared differences
    compared=$(number_of "$1" compared)
    differences=$(number_of "$1" differences)
    echo "$1: $(number_of "$1" classes) classes, $(number_of "$1" loaders) loaders, $(number_of "$1" sites) sites," \
        "${compared:-no} calls compared, ${differences:-no} differ"
    if [ "${compared:-0}" -lt "$2" ] || [ "${differences:-1}" != 0 ]; then
        echo "$1: at least $2 calls are wanted, and none that differs" >&2
        status=1
    fi
}

# What was retired: of loaders, their classes and the sites in these so many at least.
look_at_retired() {
    local what number wanted
    echo "$1: $(number_of "$1" retired_loaders) loaders retired, $(number_of "$1" retired_classes) classes," \
        "$(number_of "$1" retired_sites) sites, $(number_of "$1" retired_links) links dropped by that," \
        "$(number_of "$1" held_loaders) loaders held"
    for what in loaders:"$2" classes:"$3" sites:"$4"; do
        number=$(number_of "$1" "retired_${what%:*}")
        wanted=${what#*:}
        if [ "${number:-0}" -lt "$wanted" ]; then
            echo "$1: at least $wanted ${what%:*} are to be retired" >&2
            status=1
        fi
    done
    if [ "$(number_of "$1" held_loaders)" != 0 ]; then
        echo "$1: nothing holds a loader that HotSpot has collected" >&2
        status=1
    fi
}

# What the agent keeps: so many files, methods and places of calls at most. What it kept of 600 dropped classes would be more.
look_at_kept() {
    local what number most
    for what in files:"$2" methods:"$3" places:"$4"; do
        number=$(number_of "$1" "kept_${what%:*}")
        most=${what#*:}
        if [ "${number:-$((most + 1))}" -gt "$most" ]; then
            echo "$1: ${number:-no} ${what%:*} are kept, and $most are enough" >&2
            status=1
        fi
    done
}

# The link of the call, by the method that it names, at which all dropped classes were met: it has one of these forms at the end.
look_at_call() {
    local call="\"instruction\":\"invokeinterface\",\"calls\":\"$2\""
    grep -oE "$call[^}]*" "$reports/$1.json" || true
    if ! grep -qE "$call,\"form\":\"($3)\",\"rows\":[0-8],\"installed\":[0-9]{2,}\}" "$reports/$1.json"; then
        echo "$1: this call has to be none of the megamorphic ones at the end, and was linked anew at least ten times" >&2
        status=1
    fi
}

words() { echo "check,json,report=$reports/$1.json,entries=$entries"; }

"$home/bin/java" -Xshare:off -agentpath:"$agent=$(words streams)" -cp "$work/classes" Streams
look_at streams 3000
"$home/bin/javac" -J-Xshare:off -J-agentpath:"$agent=$(words javac)" -d "$work/compiled" "$sources/java/Parts.java" "$sources/java/Step.java"
test -f "$work/compiled/Step.class"
look_at javac 20000
"$home/bin/java" -Xshare:off -agentpath:"$agent=$(words loaders)" -cp "$work/classes" Loaders
look_at loaders 1000
if [ "$(number_of loaders loaders)" -lt 21 ]; then
    echo "the program has 20 loaders of its own" >&2
    status=1
fi

"$home/bin/java" -Xshare:off -agentpath:"$agent=$(words dropping),sites=Dropping" -cp "$work/classes" Dropping
look_at dropping 100000
look_at_retired dropping 180 540 1000
look_at_kept dropping 900 2700 5300
look_at_call dropping 'Step\.next\(I\)I' 'direct|interface_table'

shop="$work/shop/WEB-INF/classes"
"$home/bin/javac" --release 17 -Xlint:all,-path -Werror -cp "$jars" -d "$shop" "$sources"/tomcat/shop/*.java
"$home/bin/javac" --release 17 -Xlint:all,-path -Werror -cp "$jars" -d "$work/tomcat" "$sources"/tomcat/*.java
"$home/bin/java" -Xshare:off --add-opens=java.base/java.lang=ALL-UNNAMED --add-opens=java.base/java.io=ALL-UNNAMED \
    --add-opens=java.rmi/sun.rmi.transport=ALL-UNNAMED \
    -agentpath:"$agent=$(words tomcat),sites=org/apache/catalina/core/ApplicationFilterChain" \
    -cp "$work/tomcat:$jars" Redeploying "$work/shop" "$work/base" 2> "$work/said" || {
    cat "$work/said" >&2
    status=1
}
look_at tomcat 100000
look_at_retired tomcat 18 90 200
look_at_call tomcat 'jakarta/servlet/Servlet\.service\([^"]*' 'pending|direct|interface_table'

# More loaders than 1,024 that come and go: none is left out.
"$home/bin/java" -Xshare:off -agentpath:"$agent=json,report=$reports/many.json" -cp "$work/classes" Dropping 800
if [ "$(number_of many retired_loaders)" -lt 1000 ] || grep -q LINKD_LOADERS_FULL "$reports/many.json" ||
    [ "$(number_of many classes_without_loader)" != 0 ] || [ "$(number_of many held_loaders)" != 0 ]; then
    cat "$reports/many.json" >&2
    echo "many: the linker takes all 1,066 loaders, and retires them" >&2
    status=1
fi

# The loaders of HotSpot's accessors for reflective calls, which are more than 1,024, too, take none. From 18 on it makes no such loaders.
accessors=1100
if [ "$version" -ge 18 ]; then accessors=0; fi
"$home/bin/java" -Xshare:off -Dsun.reflect.noInflation=true -agentpath:"$agent=json,report=$reports/reflecting.json" -cp "$work/classes" \
    Reflecting
if [ "$(number_of reflecting classes_without_loader)" -lt $accessors ] || [ "$(number_of reflecting retired_loaders)" -lt 2 ] ||
    grep -q LINKD_LOADERS_FULL "$reports/reflecting.json"; then
    cat "$reports/reflecting.json" >&2
    echo "reflecting: after $accessors accessors two loaders have numbers, and are retired" >&2
    status=1
fi

# Each collector tells of its loaders in its own way.
for collector in Serial Parallel Shenandoah Z; do
    if ! "$home/bin/java" "-XX:+Use${collector}GC" -version > /dev/null 2>&1; then
        echo "$collector: not in this JDK"
        continue
    fi
    "$home/bin/java" "-XX:+Use${collector}GC" -Xshare:off -agentpath:"$agent=check,json,report=$reports/$collector.json,entries=200000" \
        -cp "$work/classes" Dropping
    look_at "$collector" 20000
    look_at_retired "$collector" 180 540 40
done

# The linker's agent sees the class file before an agent of Java changes it, so one call differs.
"$home/bin/javac" --release 17 -Xlint:all -Werror -d "$work/changed" "$sources"/changed/*.java
printf 'Premain-Class: Renaming\n' > "$work/manifest"
"$home/bin/jar" --create --file "$work/changed.jar" --manifest "$work/manifest" -C "$work/changed" .
"$home/bin/java" -Xshare:off -agentpath:"$agent=$(words changed)" -javaagent:"$work/changed.jar" -cp "$work/changed" Changed 2> "$work/said"
wanted='^linkd: difference at Changed.told(LChanged$Above;)I, pc 1, .* the JVM runs Changed$Above.told()I, linkd says Changed$Below.told()I$'
if [ "$(number_of changed differences)" != 1 ] || ! grep -q "$wanted" "$work/said"; then
    cat "$work/said" >&2
    echo "changed: a class that was changed behind the agent's back has to differ" >&2
    status=1
fi

# Whatever its words are, the machine runs on.
for words in "report=$work/nowhere/report" "entries=x" "nonsense"; do
    "$home/bin/java" -Xshare:off -agentpath:"$agent=$words" -cp "$work/classes" Streams 2> "$work/said"
    grep -q '^linkd: ' "$work/said"
    grep -q '^linkd: classes ' "$work/said"
done
for program in Loaders Dropping; do
    "$home/bin/java" -Xcheck:jni -Xshare:off -agentpath:"$agent=check,entries=100000" -cp "$work/classes" $program > "$work/said" 2>&1
    if grep -E '^(WARNING|FATAL)' "$work/said"; then
        status=1
    fi
done
if [ -n "${JAVA2:-}" ]; then
    JAVA_HOME=$JAVA2 JAVA2='' TOMCAT=$tomcat "$top/bench/agent.sh" "$reports/second" || status=1
fi
if [ $status = 0 ]; then
    echo "all as it must be"
fi
exit $status
