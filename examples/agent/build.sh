#!/usr/bin/env bash
# Builds the agent: FOLDER/liblinkd_agent.so, or out/ beside this script.
#
#     examples/agent/build.sh [FOLDER]
#
# It needs what tools/library.sh needs, and jvmti.h of the JDK, from 11 to 25, that JAVA_HOME names or that java of the PATH is of.
set -eu
here=$(cd "$(dirname "$0")" && pwd)
out=${1:-$here/out}
if [ -n "${JAVA_HOME:-}" ]; then
    home=$JAVA_HOME
else
    home=$(java -XshowSettings:properties -version 2>&1 | sed -n 's/^ *java.home = //p')
fi
if [ ! -f "$home/include/jvmti.h" ]; then
    echo "there is no $home/include/jvmti.h: set JAVA_HOME to a JDK" >&2
    exit 2
fi
"$here/../../tools/library.sh" "$out"
cc -std=c11 -D_POSIX_C_SOURCE=200809L -O2 -Wall -Wextra -Werror -fPIC -fvisibility=hidden -shared -pthread -Wl,-z,defs -Wl,--exclude-libs,ALL \
    -I"$here/../../include" -I"$home/include" -I"$home/include/linux" -o "$out/liblinkd_agent.so" "$here"/*.c "$out/liblinkd.a"
