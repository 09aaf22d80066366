# Puts a JDK of version 22 or later first in the PATH: that of JAVA_HOME, or else of the PATH, or else of /usr/lib/jvm. Sourced.

# Whether javac of this folder is there, and new enough.
new_enough() {
    local version
    version=$("$1/javac" -version 2>&1 | sed -nE 's/^javac ([0-9]+).*/\1/p')
    [ "${version:-0}" -ge 22 ]
}

found=
for folder in ${JAVA_HOME:+"$JAVA_HOME/bin"} "$(dirname "$(command -v javac || echo /usr/bin/javac)")" /usr/lib/jvm/*/bin; do
    if new_enough "$folder" 2> /dev/null; then
        found=$folder
        break
    fi
done
if [ -z "$found" ]; then
    echo "no JDK of version 22 or later: set JAVA_HOME to one" >&2
    exit 2
fi
PATH="$found:$PATH"
