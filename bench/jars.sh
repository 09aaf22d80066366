#!/usr/bin/env bash
# Compares the class files that tools/classes.py takes with what a JVM finds: which there are, and their bytes.
#
#     bench/jars.sh [FOLDER]       FOLDER keeps the packages, so that they are fetched once
#
# Each jar of twelve of Debian's packages, a multi-release one among them; all of them in order and in the opposite order; jars made here
# with forty-odd manifests; multi-release jars as of releases 8 and 11; a folder, a war, jars of Spring Boot's form and a .jmod, made of
# these jars; a JDK's own classes, of all modules and of named ones. A class loader of Found.java says what there is. After that, what has
# to be refused, and what has to be told, as worked out by hand.
# It needs apt-get and dpkg-deb, which fetch the packages without being root and install none, python3, and a JDK 17 with jimage and
# jmods, which JAVA_HOME chooses (else java of the PATH). Where there is a JDK 25, too, which JAVA_25_HOME chooses (else one in
# /usr/lib/jvm), the multi-release jars and some of its modules are compared with what it finds. It takes two to four minutes, and ends with
# status 0 only where all is as it must be.
set -eu
here=$(cd "$(dirname "$0")" && pwd)
. "$here/common.sh"

if [ $# -gt 1 ]; then usage; fi
export LC_ALL=C.UTF-8
home=${JAVA_HOME:-$(dirname "$(dirname "$(readlink -f "$(command -v java)")")")}
packages=${1:-$work/packages}
mkdir -p "$packages"
packages=$(cd "$packages" && pwd)
cd "$work"
status=0

# Fetches the packages, by lists of its own.
fetch() {
    mkdir -p lists/partial cache/archives/partial
    options=(-q -o "Dir::State::lists=$work/lists" -o "Dir::Cache=$work/cache" -o "APT::Sandbox::User=$(id -un)")
    apt-get "${options[@]}" update > fetched
    (cd "$packages" && apt-get "${options[@]}" download groovy libecj-java libtomcat9-java libtomcat10-embed-java libantlr4-runtime-java \
        libguava-java libhsqldb-java libclojure-java libbcprov-java liblog4j2-java libjackson2-core-java scala-library > "$work/fetched")
    for package in "$packages"/*.deb; do
        dpkg-deb -x "$package" "$packages/files"
    done
}

# Has classes.py make a folder of these paths; the words before them may be options, besides those of $options.
count=0
take() {
    count=$((count + 1))
    "$here/../tools/classes.py" "out/$count" ${options[@]+"${options[@]}"} "$@" > said 2> errors || {
        cat errors >&2
        status=1
    }
}

# The same, to be compared with what a class loader finds on these paths.
row() {
    take "$@"
    (IFS=$'\t' && echo "$work/out/$count"$'\t'"$*") >> lines
}

# Compares the folders that were made, and removes them.
compare() {
    echo "== $1"
    run_java -Djava.util.logging.config.file=/dev/null ${2:+"-Djdk.util.jar.version=$2"} Found < lines || status=1
    rm -rf out lines
    mkdir out
}

# Takes the classes of a JDK, by its home, of these modules, or of all where none is named, of which nothing is told, and compares them with
# those of the JVM.
compare_jdk() {
    modules=${*:2}
    take --jdk "$1" ${modules:+--modules "${modules// /,}"}
    if [ -s errors ]; then
        head -n 3 errors >&2
        status=1
    fi
    run_java Found --jdk "out/$count" "${@:2}" || status=1
}

# The home of a JDK 25, where there is one.
later_home() {
    for folder in "${JAVA_25_HOME:-}" /usr/lib/jvm/*; do
        if grep -q '^JAVA_VERSION="25' "$folder/release" 2> /dev/null; then
            echo "$folder"
            return
        fi
    done
}

# Compares what the script takes by default with what the JDK 25 finds.
compare_later() {
    PATH="$later/bin:$PATH"
    exports=()
    options=()
    java -version 2>&1 | sed -n 2p
    for jar in made/later/*.jar "$packages"/files/usr/share/java/log4j-core-*.jar; do
        row "$jar"
    done
    compare "release 25, without a word of it"
    compare_jdk "$later" java.base jdk.compiler
}

# Makes the jars of made/, each with a class in several versions: below manifests/ one for each manifest, and below later/ the same without
# the version for which a JVM of Java 25 has no memory; in malformed/ those in which a JVM finds nothing.
make_jars() {
    python3 - <<'PYTHON'
import os
import re
import warnings
import zipfile

warnings.simplefilter("ignore")
YES = b"Multi-Release: true\n"
LONG = b"X: " + b"x" * 508
GOOD = [
    YES, b"A: b\n" + YES, b"A: b\r\nMulti-Release: true\r\n\r\n", b"A: b\rMulti-Release: true\r", b"MULTI-release: TRUE\n",
    b"Multi-Release: true \n", b"Multi-Release:  true\n", b"Multi-Release: true\0\n", b"Multi-Release: false\n", b"Multi-Release:true\n",
    b"Multi-Release: true", YES + b"X: y", YES + b"X:", YES + b" ", b"Multi-Release: truex", b"Multi-Release: tr\n ue\n", YES + b" \n",
    YES + b" x\n", b"Multi-Relea\n se: true\n", b"Multi-Release: tr\n ue\nX: Multi-Release: true\n", b"A: b\r c\r" + YES, b"\n" + YES,
    b"A: b\n\nName: a/\n" + YES, b"A: b\r\r" + YES, YES + b"Multi-Release: false\n", b"Multi-Release: false\n" + YES, YES + b"\nbad line\n",
    YES + LONG + b"\n", b"X: \xff\n" + YES, YES + b"-x: y\n", YES + b"x" * 70 + b": y\n", YES + b"X: \n", b"bad line\n", b"",
]
BAD = [
    YES + b"bad line\n", YES + b"bad name: x\n", YES + b"X:y\n", YES + b"X:\n", YES + b"X:\r\n", YES + b"X : y\n", YES + b": y\n",
    YES + LONG + b"x\n", YES + LONG + b"xx", YES + b"x" * 71 + b": y\n", b" x\n" + YES, "Ä: y\n".encode() + YES, YES + b"X\n :y: z\n",
]
MANIFEST, LOWER = "META-INF/MANIFEST.MF", "meta-inf/manifest.mf"
NO = b"A: b\n"
VERSIONS = ["7", "8", "9", "09", "10", "11", "12", "17", "18", "25", "26", "0x9", "9/META-INF"]
FOLDERS = (("manifests", [*VERSIONS, "99999999999"]), ("later", VERSIONS))
SEVERAL = [[(LOWER, YES)], [(MANIFEST, YES), (LOWER, NO)], [(MANIFEST, NO), (LOWER, YES)], [(MANIFEST, YES), (MANIFEST, NO)],
           [(MANIFEST, NO), (MANIFEST, YES)], []]


def made(path, members, versions):
    os.makedirs(os.path.dirname(path), exist_ok=True)
    with zipfile.ZipFile(path, "w", zipfile.ZIP_DEFLATED) as archive:
        for name, text in members:
            archive.writestr(name, text)
        for name in [*(f"META-INF/versions/{k}/a/A" for k in versions), "a/A", "B", "B", "Ä"]:
            archive.writestr(name + ".class", b"\xca\xfe\xba\xbe" + name.encode() + os.urandom(4))
        for name in ("META-INF/versions/8/b/C", "META-INF/versions/9/b/D", "META-INF/versions/7/b/E", "META-INF/versions/18/b/F",
                     "meta-inf/versions/9/b/G", "META-INF/x/H", "module-info", "META-INF/versions/9/module-info", "a/package-info"):
            archive.writestr(name + ".class", b"\xca\xfe\xba\xbe" + name.encode())
        archive.writestr("I.class/", b"")
        archive.writestr("a/readme", b"no class")


for at, manifest in enumerate(BAD):
    made(f"made/malformed/{at}.jar", [(MANIFEST, manifest)], VERSIONS)
for folder, versions in FOLDERS:
    for at, manifest in enumerate(GOOD):
        made(f"made/{folder}/{at}.jar", [(MANIFEST, manifest)], versions)
    for at, members in enumerate(SEVERAL):
        made(f"made/{folder}/several{at}.jar", members, versions)
        # Without the flag that says that the names are UTF-8, which they are.
        with open(f"made/{folder}/several{at}.jar", "r+b") as file:
            archive = re.sub(rb"(PK\x03\x04..|PK\x01\x02....)\x00\x08", rb"\1\0\0", file.read(), flags=re.S)
            file.seek(0)
            file.write(archive)
PYTHON
}

# Makes a war, and jars of Spring Boot's form with an index and without, of a folder and four jars, whose order there is none of names. The
# folder and three of these jars share classes.
make_applications() {
    mkdir -p folder/META-INF/versions/9/a
    unzip -q -o "$1" -d folder
    cp "$(find folder/org -name '*.class' | sort | head -n 1)" folder/META-INF/versions/9/a/A.class
    cp folder/META-INF/versions/9/a/A.class folder/module-info.class
    cp folder/META-INF/versions/9/a/A.class folder/B.class
    python3 - "${@:2}" <<'PYTHON'
import os
import pathlib
import sys
import zipfile

libraries = dict(zip(["m.jar", "z.jar", "a.jar", "k.jar"], sys.argv[1:]))
pathlib.Path("parts").mkdir()
for name, path in libraries.items():
    os.symlink(path, f"parts/{name}")
INDEX = ["a.jar", "gone.jar", "z.jar"]
for path, top, index in (("app.war", "WEB-INF", None), ("boot.jar", "BOOT-INF", None), ("indexed.jar", "BOOT-INF", INDEX)):
    with zipfile.ZipFile(path, "w") as archive:
        archive.writestr("META-INF/MANIFEST.MF", "Main-Class: org.springframework.boot.loader.JarLauncher\n")
        archive.writestr("org/springframework/boot/loader/JarLauncher.class", b"\xca\xfe\xba\xbe")
        for name, library in libraries.items():
            archive.write(library, f"{top}/lib/{name}", zipfile.ZIP_STORED)
        if top == "WEB-INF":
            archive.write(sys.argv[-1], f"{top}/lib/below/a.jar")
        if index:
            archive.writestr(f"{top}/classpath.idx", "".join(f'- "{top}/lib/{name}"\n' for name in index))
        for file in sorted(pathlib.Path("folder").rglob("*")):
            archive.write(file, f"{top}/classes/{file.relative_to('folder')}", zipfile.ZIP_DEFLATED)
PYTHON
}

# Has classes.py refuse these words with a line that says this, and make nothing.
refused=0
refuse() {
    came=0
    refused=$((refused + 1))
    "$here/../tools/classes.py" "${@:2}" > said 2> errors || came=$?
    if [ $came != 2 ] || [ -s said ] || ! tail -n 1 errors | grep -q -e "$1" || [ -e new ] || grep -q Traceback errors; then
        echo "not refused with status 2 and \"$1\": ${*:2}: status $came: $(cat said errors)" >&2
        status=1
        rm -rf new
    fi
}

# Makes archives that have to be refused.
make_refused() {
    python3 - <<'PYTHON'
import os
import zipfile

GOOD = b"\xca\xfe\xba\xbe"


def made(path, name, text=GOOD, mode=0, kind=zipfile.ZIP_DEFLATED):
    member = zipfile.ZipInfo("x")
    member.filename, member.external_attr, member.compress_type = name, mode << 16, kind
    with zipfile.ZipFile(f"refused/{path}", "w") as archive:
        archive.writestr("META-INF/MANIFEST.MF", "Multi-Release: true\n")
        archive.writestr("first.class", GOOD)
        archive.writestr(member, text)


os.mkdir("refused")
NAMES = ["../evil", "/evil", "C:/evil", "a\\evil", "a/../../evil", "a//evil", "./evil", "META-INF/versions/9/../../../../evil", "c:evil"]
for at, name in enumerate(f"{name}.class" for name in NAMES):
    made(f"name{at}.jar", name)
made("name.war", "WEB-INF/classes/../../evil.class")
made("name.boot.jar", "BOOT-INF/classes//evil.class")
made("text.jar", "a.class", b"no class")
made("empty.jar", "a.class", b"")
made("link.jar", "a.class", b"/etc/passwd", 0o120777)
made("bzip2.jar", "a.class", kind=zipfile.ZIP_BZIP2)
made("both.jar", "first.class/a.class")
made("library.war", "WEB-INF/lib/a.jar", b"no archive")
with zipfile.ZipFile("refused/bomb.war", "w", zipfile.ZIP_DEFLATED, compresslevel=1) as archive:
    with archive.open("WEB-INF/lib/a.jar", "w", force_zip64=True) as member:
        for _ in range(2000):
            member.write(bytes(1 << 20))
text = bytearray(open("refused/text.jar", "rb").read())
for at, changed in (("encrypted", b"\x01"), ("cut", None)):
    archive = bytearray(text)
    if changed:
        archive[archive.rindex(b"PK\x01\x02") + 8] |= 1
    open(f"refused/{at}.jar", "wb").write(archive if changed else archive[:-30])
open("refused/lies.jar", "wb").write(bytes(open("refused/name0.jar", "rb").read()).replace(b"../evil.class", b"aaaaevil.class"[:13], 1))
open("refused/text", "w").write("no archive\n")
os.makedirs("refused/links/a")
os.symlink("/etc", "refused/links/a/b")
os.makedirs("refused/link")
os.symlink("/etc/passwd", "refused/link/A.class")
os.makedirs("refused/full/below")
os.makedirs("refused/plain")
open("refused/plain/A.class", "wb").write(GOOD + b"\0\0\0\x3d")
os.makedirs("refused/pipe")
os.mkfifo("refused/pipe/A.class")
PYTHON
}

# Has classes.py make `new` of these words, and compares the line that it prints and the lines that it tells with the first two words.
told=0
tells() {
    told=$((told + 1))
    rm -rf new
    "$here/../tools/classes.py" new "${@:3}" > said 2> errors || status=1
    if ! diff <(printf '%s\n' "$1") said >&2 || ! diff <(printf '%s' "$2") errors >&2; then
        echo "not told so: ${*:3}" >&2
        status=1
    fi
}

# Compares a file with one of `new`.
same() {
    cmp "$1" "new/$2" || status=1
}

# Makes archives and folders of which something has to be told, or nothing.
make_told() {
    python3 - <<'PYTHON'
import os
import zipfile

MAGIC = b"\xca\xfe\xba\xbe"
OF_70 = MAGIC + b"\0\0\0\x46"
MOST = 1_000_000


def made(path, members):
    """Makes a folder with these files."""
    for name, text in members.items():
        os.makedirs(os.path.dirname(f"{path}/{name}"), exist_ok=True)
        with open(f"{path}/{name}", "wb") as file:
            file.write(text)


def packed(path, members, kind=zipfile.ZIP_DEFLATED):
    with zipfile.ZipFile(path, "w", kind) as archive:
        for name, text in members.items():
            archive.writestr(name, text)


def damaged(path, name):
    """Makes a jar of this class in which its last byte is another one than was packed."""
    packed(path, {"A.class": BIG[name]}, zipfile.ZIP_STORED)
    with open(path, "r+b") as file:
        text = file.read()
        file.seek(text.index(BIG[name]) + len(BIG[name]) - 1)
        file.write(b"\1")


os.mkdir("told")
# The seventh and eighth bytes are the major version: the seventh alone is none, and the minor version stands before them.
heads = {"A": "0000002d", "B": "0000003d", "C": "00000041", "D": "00000045", "E": "ffff0045", "F": "0046003d", "G": "000046"}
made("told/known", {f"{name}.class": MAGIC + bytes.fromhex(head) for name, head in heads.items()})
later = {"A.class": MAGIC + b"\0\0\1\1", "H.class": MAGIC + b"\0\0\1\0", "a/I.class": OF_70, "a/J.class": OF_70}
made("told/later", later)
packed("told/later.jar", {"a/I.class": OF_70})

releases = {f"META-INF/versions/{release}/A.class": MAGIC + str(release).encode() for release in (17, 24, 25, 26)}
packed("told/releases.jar", {"META-INF/MANIFEST.MF": "Multi-Release: true\n", "A.class": MAGIC, **releases})
made("told/releases", {name[18:20]: text for name, text in releases.items()})

BIG = {name: OF_70[:7] + b"\x3d" + bytes(length - 9) + b"\2" for name, length in (("Most", MOST), ("Over", MOST + 1), ("More", MOST + 2))}
made("told/big", {f"a/{name}.class": text for name, text in BIG.items()})
packed("told/big.jar", {f"a/{name}.class": text for name, text in BIG.items()})
for name in BIG:
    damaged(f"told/{name}.damaged.jar", name)
with zipfile.ZipFile("told/huge.jar", "w", zipfile.ZIP_DEFLATED) as archive:
    with archive.open("b/Huge.class", "w") as member:
        member.write(OF_70)
        for _ in range(300):
            member.write(bytes(MOST))
with zipfile.ZipFile("told/huge.war", "w") as archive:
    archive.write("told/huge.jar", "WEB-INF/lib/huge.jar")
made("told/huge", {"b/Huge.class": OF_70})
os.truncate("told/huge/b/Huge.class", 300 * MOST)
PYTHON
}

[ -d "$packages/files" ] || fetch
later=$(later_home)
mkdir out
options=(--release 17)
mapfile -t jars < <(find "$packages/files/usr/share/java" -name '*.jar' -type f | sort)
java -version 2>&1 | sed -n 2p
for jar in "${jars[@]}"; do
    row "$jar"
done
compare "each of ${#jars[@]} jars"
row "${jars[@]}"
mapfile -t turned < <(printf '%s\n' "${jars[@]}" | tac)
row "${turned[@]}"
compare "all of them, and in the opposite order"

make_jars
for jar in made/manifests/*.jar; do
    row "$jar"
done
compare "made manifests"
for release in 8 11; do
    options=(--release $release)
    for jar in made/manifests/*.jar "$packages"/files/usr/share/java/log4j-core-*.jar; do
        row "$jar"
    done
    compare "release $release" $release
done
options=(--release 17)
printf 'none\t%s\n' made/malformed/*.jar > lines
compare "malformed manifests, in which a JVM finds nothing"

java=$packages/files/usr/share/java
make_applications "$java/antlr4-runtime.jar" "$java"/log4j-api-2*.jar "$work"/made/manifests/{0,8,9}.jar "$java/jackson-core.jar"
row folder
row folder parts/m.jar
take app.war
printf '%s\t' "$work/out/$count" folder parts/a.jar parts/k.jar parts/m.jar parts/z.jar >> lines
echo >> lines
take boot.jar
printf '%s\t' "$work/out/$count" folder parts/m.jar parts/z.jar parts/a.jar parts/k.jar >> lines
echo >> lines
take indexed.jar
printf '%s\t' "$work/out/$count" folder parts/a.jar parts/z.jar parts/m.jar parts/k.jar >> lines
echo >> lines
"$home/bin/jmod" extract --dir jmod "$home/jmods/java.logging.jmod"
take "$home/jmods/java.logging.jmod"
printf '%s\t%s\n' "$work/out/$count" jmod/classes >> lines
compare "a folder, a war, jars of Spring Boot's form, a .jmod"
echo "== a JDK, and some of its modules"
mkdir modular
ln -s "$home/jmods" modular/jmods
compare_jdk "$home"
compare_jdk "$home" java.base
for jdk in "$home" modular; do
    compare_jdk "$jdk" java.sql java.logging java.sql
done
if [ -n "$later" ]; then
    (compare_later && exit $status) || status=1
else
    echo "no JDK 25, so nothing is compared with one"
fi
rm -rf out

echo "== refused"
make_refused
for jar in made/malformed/*.jar; do
    refuse "its manifest is malformed" new "$jar"
done
for path in refused/name*; do
    refuse "leads out of its folder" new refused/plain "$path"
done
refuse "a.class is no class file" new refused/text.jar
refuse "a.class is no class file" new refused/empty.jar
refuse "a symbolic link: 'a.class'" new refused/link.jar
refuse "a member that a JVM can't unpack" new refused/bzip2.jar
refuse "first.class" new refused/both.jar
refuse "library.war!/WEB-INF/lib/a.jar: neither" new refused/library.war
refuse "more than 2000000000 bytes" new refused/bomb.war
refuse "more than 7 bytes" new --limit 7 refused/plain
refuse "an encrypted member" new refused/encrypted.jar
refuse "neither a folder nor an archive" new refused/cut.jar
refuse "lies.jar: neither" new refused/lies.jar
refuse "neither a folder nor an archive" new refused/text
refuse "neither a folder nor an archive" new refused/plain/A.class
refuse "there is no such" new refused/plain refused/none.jar
refuse "a symbolic link" new refused/links
refuse "a symbolic link" new refused/link
refuse "is no file" new refused/pipe
refuse "no empty folder" refused/full refused/plain
refuse "no empty folder" refused/text refused/plain
refuse "it lies in" refused/plain/new refused/plain
refuse "neither jimage" new --jdk refused
refuse "no PATH" new
refuse "invalid int" new --release x refused/plain
refuse "modules java.base without --jdk" new --modules java.base refused/plain
refuse "modules  without --jdk" new --modules "" refused/plain
refuse "jdk of no folder" new --jdk "" refused/plain
for names in "" , java.sql, ,java.sql java.sql,,java.logging; do
    refuse "an empty name in --modules '$names'" new --jdk "$home" --modules "$names"
done
for jdk in "$home" modular; do
    for name in java.none java java.sql/java . .. "java.sq?" "java\.sql" "java.sql)|(.*" " java.sql" packages; do
        refuse "it has no module '" new --jdk "$jdk" --modules "java.sql,$name"
    done
done
if command -v zip > /dev/null; then
    zip -q -e -P word -j refused/zip.jar refused/plain/A.class
    refuse "an encrypted member" new refused/zip.jar
fi
make_told
refuse "Bad CRC-32" new told/Most.damaged.jar
refuse "Bad CRC-32" new told/Over.damaged.jar
refuse "more than 1000000 bytes" new --limit 1000000 told/huge.jar
refuse "more than 1000000 bytes" new --limit 1000000 told/huge
[ -z "$(ls refused/full/below)" ] && [ -z "$(find refused/plain -name new)" ] || status=1
echo "$refused words are refused, or told of above"

echo "== told"
# Whatever comes twice is told with both places.
cp -r refused/plain refused/second
echo more >> refused/second/A.class
mkdir empty
"$here/../tools/classes.py" empty refused/plain refused/second > said 2> errors || status=1
printf '1 classes of 2 paths\n' | cmp - said || status=1
printf 'classes.py: A is in refused/plain and in refused/second, and the first is kept\n' | cmp - errors || status=1
cmp empty/A.class refused/plain/A.class || status=1

# A path that comes again is told once, and not each of its classes.
ln -s known told/again
ln -s later.jar told/again.jar
again=$'classes.py: told/known: it came before, as told/known, and is left out
classes.py: told/again: it came before, as told/known, and is left out
classes.py: ./told/later/../known: it came before, as told/known, and is left out
'
tells "7 classes of 1 paths" "$again" told/known told/known told/again ./told/later/../known
later70="classes.py: classes of later versions than 69, that of Java 25: 1, up to 70; linkd report doesn't read them"$'\n'
again=$'classes.py: told/again.jar: it came before, as told/later.jar, and is left out\n'
tells "1 classes of 1 paths" "$again$later70" told/later.jar told/again.jar

tells "7 classes of 1 paths" "" told/known
tells "1 classes of 1 paths" "$later70" told/later.jar
several=$'classes.py: A is in told/known and in told/later, and the first is kept
classes.py: classes of later versions than 69, that of Java 25: 3, up to 256; linkd report doesn\'t read them
'
tells "10 classes of 2 paths" "$several" told/known told/later

tells "1 classes of 1 paths" "" told/releases.jar
same told/releases/25 A.class
for release in 17 24 25 26; do
    tells "1 classes of 1 paths" "" told/releases.jar --release $release
    same told/releases/$release A.class
done
tells "1 classes of 1 paths" "" told/releases.jar --release 23
same told/releases/17 A.class

# A module without classes of its own.
tells "0 classes of 1 paths" "" --jdk "$home" --modules java.se

# Of a larger class one byte more than can be read is kept, and no more is read; what is damaged after that isn't found.
large() {
    echo "classes.py: classes of more than 1,000,000 bytes: $1; linkd report tells them as TooLarge"
}
for path in told/big.jar told/big; do
    tells "3 classes of 1 paths" "$(large "2, such as a/$([ -d $path ] && echo More || echo Over) of $path")"$'\n' $path --limit 3000002
    same told/big/a/Most.class a/Most.class
    same told/big/a/Over.class a/Over.class
    same <(head -c 1000001 told/big/a/More.class) a/More.class
done
for path in told/huge.jar told/huge; do
    tells "1 classes of 1 paths" "$later70$(large "1, such as b/Huge of $path")"$'\n' $path --limit 1000001
    same <(head -c 1000001 told/huge/b/Huge.class) b/Huge.class
done
library="told/huge.war!/WEB-INF/lib/huge.jar"
tells "1 classes of 1 paths" "$later70$(large "1, such as b/Huge of $library")"$'\n' told/huge.war
same <(head -c 1000001 told/huge/b/Huge.class) b/Huge.class
tells "1 classes of 1 paths" "$(large "1, such as A of told/More.damaged.jar")"$'\n' told/More.damaged.jar
same <(head -c 1000001 told/big/a/More.class) A.class
rm -rf new
echo "$told words are taken, and what is told is what was worked out by hand"
if [ $status = 0 ]; then
    echo "all as it must be"
else
    echo "NOT as it must be" >&2
fi
exit $status
