# Builds crates/linkd_c, unless LINKD_ARCHIVE names an archive, and the archive of it and of the toolchain's C code for the heap, as
# $work/liblinkd.a. Sourced, with $top the top of the repository, $work a folder that goes away at the end, and maybe $also, more programs
# that are needed.

# Compiles a C program of these files, with the header and the archive.
build_c() {
    made=$1
    shift
    cc -std=c11 -O2 -Wall -Wextra -Werror -pthread -I"$top/include" -o "$made" "$@" "$work/liblinkd.a"
}

missing=
for tool in cc ar nm rt ${also:-}; do
    command -v "$tool" > /dev/null || missing="$missing $tool"
done
if [ -n "$missing" ]; then
    echo "missing:$missing" >&2
    exit 2
fi
# What is built already, and is of these sources, is taken as it is.
if [ -z "${LINKD_ARCHIVE:-}" ] && ! (cd "$top/crates/linkd_c" && rt lib) > "$work/lib.txt" 2>&1; then
    tail -n 5 "$work/lib.txt" >&2
    exit 1
fi
"$top/tools/library.sh" "$work"
