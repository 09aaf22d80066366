#!/usr/bin/env bash
# Builds the agent that notes the methods which a JVM enters, as FOLDER/liblinkd_entries.so.
#
#     examples/reachable/build.sh FOLDER
#
# It needs jvmti.h of the JDK, from 11 to 25, that JAVA_HOME names or that java of the PATH is of.
set -eu
here=$(cd "$(dirname "$0")" && pwd)
if [ $# != 1 ]; then
    sed -n '2,/^set/{/^#/s/^# \{0,1\}//p;}' "$0" >&2
    exit 2
fi
if [ -n "${JAVA_HOME:-}" ]; then
    home=$JAVA_HOME
else
    home=$(java -XshowSettings:properties -version 2>&1 | sed -n 's/^ *java.home = //p')
fi
if [ ! -f "$home/include/jvmti.h" ]; then
    echo "there is no $home/include/jvmti.h: set JAVA_HOME to a JDK" >&2
    exit 2
fi
mkdir -p "$1"
cc -std=c11 -D_POSIX_C_SOURCE=200809L -O2 -Wall -Wextra -Werror -fPIC -fvisibility=hidden -shared -pthread -Wl,-z,defs \
    -I"$home/include" -I"$home/include/linux" -o "$1/liblinkd_entries.so" "$here/agent.c"
