# What the scripts need: a JDK, the built Java programs beside this file, and a folder that goes away at the end.
# Sourced, with $here the folder of this file.

# Prints what stands at the head of the script, and ends it.
usage() {
    sed -n '2,/^set/{/^#/s/^# \{0,1\}//p;}' "$0" >&2
    exit 2
}
# Lets $program be the whole path of a program.
take_program() {
    [ -f "$1" ] && [ -x "$1" ] || { echo "$1 is no program" >&2; exit 2; }
    program=$(cd "$(dirname "$1")" && pwd)/$(basename "$1")
}

export LC_ALL=C
if [ -n "${JAVA_HOME:-}" ]; then
    PATH="$JAVA_HOME/bin:$PATH"
fi
for tool in java javac javap; do
    command -v "$tool" > /dev/null || { echo "no $tool: set JAVA_HOME to a JDK of version 17 or later" >&2; exit 2; }
done

work=$(mktemp -d)
trap 'rm -rf "$work"' EXIT
trap 'exit 130' INT TERM

built="$work/built"
mkdir "$built"
# ASM stands inside the JDKs up to about 23; what needs it is built only where it does.
asm=jdk.internal.org.objectweb.asm
if javap --module java.base "$asm.ClassReader" > /dev/null 2>&1; then
    has_asm=1
    exports=(--add-exports "java.base/$asm=ALL-UNNAMED")
    sources=("$here"/*.java)
else
    has_asm=0
    exports=()
    sources=()
    for file in "$here"/*.java; do
        case "$file" in
            */Asm*.java) ;;
            *) sources+=("$file") ;;
        esac
    done
fi
javac -Xlint:all -d "$built" ${exports[@]+"${exports[@]}"} "${sources[@]}"

# Runs one of the programs. The collector is the one that takes no threads of its own.
run_java() {
    java -XX:+UseSerialGC -Xmx1500m ${exports[@]+"${exports[@]}"} -cp "$built" "$@"
}
