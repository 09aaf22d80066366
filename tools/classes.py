#!/usr/bin/env python3
"""Makes a folder of class files out of a class path as people have it: the classes that a JVM finds there, a file for each.

    tools/classes.py [--release N] [--limit BYTES] OUT PATH.. [--jdk [HOME] [--modules NAME,..]]

OUT/java/lang/Object.class is the file of java/lang/Object. A PATH is one of these:

    a folder     the .class files at and below it
    a jar        the same; where its manifest says `Multi-Release: true`, with those below META-INF/versions/K over them, for each K from 8
                 to N, the highest last. N is 25 unless --release says another. All is as java.util.jar.JarFile of Java N reads it, so of
                 two members of one name it is the last
    a .war       WEB-INF/classes, then the jars in WEB-INF/lib by their names
    a jar of Spring Boot    BOOT-INF/classes, then the jars in BOOT-INF/lib: first those that BOOT-INF/classpath.idx names, in its order,
                 then the others in the archive's. The classes of its launcher, which lie beside these folders, are left out
    a .jmod      what lies in its folder `classes`

--jdk is a JDK's own classes, which come before all paths, as in a JVM: of HOME/lib/modules by HOME/bin/jimage, else of HOME/jmods. Without
HOME it is JAVA_HOME, else that of the PATH's java. With --modules only the classes of these modules of the JDK are taken, and not those of
the modules that they require. The script needs Python 3.8.

A class has the name of its place, as for a class loader. Files module-info.class and those below META-INF are no classes. Of two files of
one class the first is kept. Of a file of more than 1,000,000 bytes, which `linkd report` tells as TooLarge, the first 1,000,001 bytes are
read and kept; whether the others are damaged isn't looked at.

These are told on standard error: a class that was found before, or that comes twice in an archive; a PATH that came before, by the same
name or another one, and is left out; a jar that classpath.idx names and that is missing; the Class-Path of a manifest, which isn't
followed; how many of the classes are of a later major version than 69, that of Java 25; how many are of more than 1,000,000 bytes.
`linkd report` reads neither of the last two. Jars in the jars of a lib folder aren't unpacked.

It ends with status 0 and a line that counts the classes; or with status 2 and a line that says why, and makes nothing: a PATH that is
missing or is none of these; an OUT that isn't empty, or lies in a PATH; a name that leads out of OUT; a symbolic link in a folder or an
archive; a .class that doesn't begin as a class file; an encrypted member; a damaged archive, or one in which a JVM finds nothing since its
manifest is malformed; more than BYTES read (2,000,000,000), whatever the archives say; two classes that no file system has side by side;
--jdk with an empty HOME; --modules without --jdk, or with a NAME that is empty or that no module of the JDK has.
"""

import argparse
import os
import re
import shutil
import stat
import subprocess
import sys
import tempfile
import zipfile
import zlib

MANIFEST = "META-INF/MANIFEST.MF"
# The newest major version of class files that `linkd report` reads, its release of Java, and the most bytes of a file.
NEWEST_KNOWN = 69
NEWEST_RELEASE = NEWEST_KNOWN - 44
MOST_BYTES = 1_000_000


class Refused(Exception):
    """Why nothing is made."""


def tell(text):
    print(f"classes.py: {text}", file=sys.stderr)


def is_class(name):
    """Whether a file of this name, below its path, is a class's."""
    return name.endswith(".class") and not name.startswith("META-INF/") and name.split("/")[-1] != "module-info.class"


def main_section(manifest):
    """The attributes of a manifest's main section by their names in lower case, as java.util.jar.Attributes reads them, which drops a last
    line without its end; None where it throws."""
    attributes, name = {}, None
    for line in re.finditer(rb"([^\r\n]*)(?:\r\n|\r|\n)|[^\r\n]{512}", manifest):
        text = line[1]
        if text is None or len(text) > 511:
            return None
        if not text:
            break
        if text.startswith(b" ") and name:
            value += text[1:]
        else:
            name, colon, value = text.partition(b": ")
            if not colon or not re.fullmatch(rb"[\w-]{1,70}", name):
                return None
        if manifest[line.end() : line.end() + 1] != b" ":
            attributes[name.decode().lower()] = value.decode("utf-8", "replace")
    return attributes


def is_multi_release(manifest, source):
    """Whether java.util.jar.JarFile takes it so: its bytes have to say it in one line, and the main section, too."""
    if b"MULTI-RELEASE: TRUE" not in manifest.upper():
        return False
    attributes = main_section(manifest)
    if attributes is None:
        raise Refused(f"{source}: its manifest is malformed, and a JVM finds nothing in it")
    return attributes.get("multi-release", "").lower() == "true"


class Archive:
    """An archive, with each member by its name: of two of one name the last, as java.util.zip.ZipFile finds it."""

    def __init__(self, file, source):
        self.zip, self.source, self.members = zipfile.ZipFile(file), source, {}
        for member in self.zip.infolist():
            name = member.orig_filename
            if not member.flag_bits & 0x800:
                name = name.encode("cp437").decode("utf-8")
            if member.flag_bits & 1:
                raise Refused(f"{source}: an encrypted member: {name!r}")
            if stat.S_ISLNK(member.external_attr >> 16):
                raise Refused(f"{source}: a symbolic link: {name!r}")
            if member.compress_type not in (zipfile.ZIP_STORED, zipfile.ZIP_DEFLATED):
                raise Refused(f"{source}: a member that a JVM can't unpack: {name!r}")
            if name.endswith(".class") and name in self.members:
                tell(f"{source}: {name} comes twice in it, and the last is kept, as by a JVM")
            self.members[MANIFEST if name.upper() == MANIFEST else name] = member

    def below(self, prefix):
        """The member of each class below a folder, by its file."""
        return {name[len(prefix) :]: name for name in self.members if name.startswith(prefix) and is_class(name[len(prefix) :])}

    def versions(self, release):
        """The versions that a JVM of this release looks at, rising."""
        found = (re.match(r"META-INF/versions/([1-9]\d{0,8})/", name) for name in self.members)
        return sorted(version for version in {int(place[1]) for place in found if place} if 8 <= version <= release)


class Classes:
    """The class files that are taken, in a folder."""

    def __init__(self, room, release, limit):
        self.room, self.release, self.limit = room, release, limit
        self.count_read, self.sources, self.later, self.large = 0, {}, [], []

    def read(self, stream, most):
        """The next bytes of a stream, up to so many, counted as they come."""
        chunk = stream.read(most)
        self.count_read += len(chunk)
        if self.count_read > self.limit:
            raise Refused(f"more than {self.limit} bytes of classes and libraries")
        return chunk

    def chunks(self, stream):
        """All that a stream gives."""
        while chunk := self.read(stream, 1 << 20):
            yield chunk

    def take(self, name, source, stream):
        """Takes a class file, unless its class was found before."""
        if {"", ".", ".."} & set(name.split("/")) or re.match("[A-Za-z]:", name) or re.search(r"[\\\0]", name):
            raise Refused(f"{source}: a name that leads out of its folder: {name!r}")
        if name in self.sources:
            tell(f"{name[:-6]} is in {self.sources[name]} and in {source}, and the first is kept")
            return
        self.sources[name] = source
        # One byte more than the most, from which `linkd report` tells that the file is too large.
        text = self.read(stream, MOST_BYTES + 1)
        if not text.startswith(b"\xca\xfe\xba\xbe"):
            raise Refused(f"{source}: {name} is no class file")
        path = os.path.join(self.room, name)
        os.makedirs(os.path.dirname(path), exist_ok=True)
        with open(path, "xb") as file:
            file.write(text)
        major = int.from_bytes(text[6:8], "big")
        if len(text) >= 8 and major > NEWEST_KNOWN:
            self.later.append(major)
        if len(text) > MOST_BYTES:
            self.large.append(name)

    def tell_unread(self):
        """Tells of the taken classes that `linkd report` doesn't read."""
        if self.later:
            newest = f"{NEWEST_KNOWN}, that of Java {NEWEST_RELEASE}"
            tell(f"classes of later versions than {newest}: {len(self.later)}, up to {max(self.later)}; linkd report doesn't read them")
        if self.large:
            example = f"{self.large[0][:-6]} of {self.sources[self.large[0]]}"
            tell(f"classes of more than {MOST_BYTES:,} bytes: {len(self.large)}, such as {example}; linkd report tells them as TooLarge")

    def folder(self, top, source):
        """Takes the class files of a folder."""
        unread = []
        for here, folders, files in os.walk(top, onerror=unread.append):
            folders.sort()
            below = "" if here == top else os.path.relpath(here, top).replace(os.sep, "/") + "/"
            for name in sorted(files + folders):
                path, is_wanted = os.path.join(here, name), name not in folders and is_class(below + name)
                if os.path.islink(path) and (is_wanted or os.path.isdir(path)):
                    raise Refused(f"{source}: a symbolic link: {path!r}")
                if is_wanted:
                    if not os.path.isfile(path):
                        raise Refused(f"{source}: {below + name} is no file")
                    with open(path, "rb") as stream:
                        self.take(below + name, source, stream)
        if unread:
            raise unread[0]

    def members(self, archive, found):
        """Takes these members of an archive, by their classes' files."""
        for name, member in found.items():
            with archive.zip.open(archive.members[member]) as stream:
                self.take(name, archive.source, stream)

    def text(self, archive, name):
        """The bytes of a member, none where it isn't there."""
        return b"".join(self.chunks(archive.zip.open(archive.members[name]))) if name in archive.members else b""

    def jar(self, archive):
        """Takes the class files of a jar."""
        manifest, found = self.text(archive, MANIFEST), archive.below("")
        if is_multi_release(manifest, archive.source) and self.release > 8:
            for version in archive.versions(self.release):
                found.update(archive.below(f"META-INF/versions/{version}/"))
        if class_path := (main_section(manifest) or {}).get("class-path"):
            tell(f"{archive.source}: the Class-Path of its manifest isn't followed: {class_path}")
        self.members(archive, found)

    def application(self, archive, top):
        """Takes the class files below the folder `classes`, and then those of the jars below `lib`."""
        self.members(archive, archive.below(f"{top}/classes/"))
        names = [name for name in archive.members if name.startswith(f"{top}/lib/") and name.endswith(".jar")]
        if top == "WEB-INF":
            names = index = sorted(name for name in names if name.count("/") == 2)
        else:
            index = re.findall(r'^\s*- "(.*)"\s*$', self.text(archive, f"{top}/classpath.idx").decode(), re.M)
        for name in dict.fromkeys([*index, *names]):
            if name not in names:
                tell(f"{archive.source}: {top}/classpath.idx names {name}, which isn't there")
                continue
            with tempfile.TemporaryFile() as file:
                with archive.zip.open(archive.members[name]) as stream:
                    file.writelines(self.chunks(stream))
                self.archive(file, f"{archive.source}!/{name}", is_library=True)

    def archive(self, file, source, is_library=False):
        """Takes the class files of an archive, by its form."""
        try:
            file.seek(0)
            start, archive = file.read(4), Archive(file, source)
            if is_library:
                self.jar(archive)
            elif start == b"JM\1\0":
                self.members(archive, archive.below("classes/"))
            elif source.lower().endswith(".war"):
                self.application(archive, "WEB-INF")
            elif any(name.startswith(("BOOT-INF/classes/", "BOOT-INF/lib/")) for name in archive.members):
                self.application(archive, "BOOT-INF")
            else:
                self.jar(archive)
        except (zipfile.BadZipFile, zlib.error, EOFError, UnicodeError, NotImplementedError, ValueError) as error:
            raise Refused(f"{source}: neither a folder nor an archive that can be read: {error}") from error

    def path(self, path):
        """Takes the class files of a path."""
        if os.path.isdir(path):
            self.folder(path, path)
        elif os.path.isfile(path):
            with open(path, "rb") as file:
                self.archive(file, path)
        else:
            raise Refused(f"{path}: there is no such folder or archive")

    def jdk(self, home, modules, room):
        """Takes the classes of a JDK, of all its modules unless some are named, with room for all that these have."""
        jimage, image, jmods = (f"{home}/{place}" for place in ("bin/jimage", "lib/modules", "jmods"))
        if os.path.isfile(jimage) and os.path.isfile(image):
            include = ["--include", ",".join(f"regex:/{re.escape(module)}/.*" for module in modules)] if modules else []
            os.mkdir(room)
            subprocess.run([jimage, "extract", "--dir", room, *include, image], stdout=subprocess.DEVNULL, check=True)
            for module in chosen(os.listdir(room), modules, home):
                self.folder(f"{room}/{module}", f"{module} of {home}")
        elif os.path.isdir(jmods):
            for module in chosen([name[:-5] for name in os.listdir(jmods) if name.endswith(".jmod")], modules, home):
                self.path(f"{jmods}/{module}.jmod")
        else:
            raise Refused(f"{home}: neither jimage with lib/modules nor jmods is there")


def chosen(found, modules, home):
    """The modules to take of those that are found in a JDK: all, unless some are named."""
    for module in modules:
        if module not in found:
            raise Refused(f"{home}: it has no module {module!r}")
    return sorted(set(modules or found))


def distinct(paths):
    """The paths, each once, whatever its names; tells of those that come again."""
    first = {}
    for path in paths:
        place = os.path.realpath(path)
        if place in first:
            tell(f"{path}: it came before, as {first[place]}, and is left out")
        else:
            first[place] = path
    return list(first.values())


def check_out(out, paths):
    """Refuses an OUT that has something in it, or that lies in a folder that is read."""
    if os.path.lexists(out) and (not os.path.isdir(out) or os.listdir(out)):
        raise Refused(f"{out}: it is there, and no empty folder")
    for path in paths:
        if os.path.isdir(path) and os.path.commonpath([os.path.realpath(path), out]) == os.path.realpath(path):
            raise Refused(f"{out}: it lies in {path}")


def make(words, modules, out):
    """Makes the folder, and tells how many classes it has."""
    paths = distinct(words.paths)
    check_out(out, paths)
    is_new = not os.path.isdir(out)
    os.makedirs(out, exist_ok=True)
    room = tempfile.mkdtemp(prefix=".unfinished-", dir=out)
    try:
        made, image = os.path.join(room, "made"), os.path.join(room, "image")
        os.mkdir(made)
        classes = Classes(made, words.release, words.limit)
        if words.jdk:
            classes.jdk(words.jdk, modules, image)
        for path in paths:
            classes.path(path)
        classes.tell_unread()
        for name in os.listdir(made):
            os.rename(os.path.join(made, name), os.path.join(out, name))
        is_new = False
    finally:
        shutil.rmtree(room)
        if is_new:
            os.rmdir(out)
    print(f"{len(classes.sources)} classes of {len(paths) + bool(words.jdk)} paths")


def main():
    usage = "tools/classes.py [--release N] [--limit BYTES] OUT PATH.. [--jdk [HOME] [--modules NAME,..]], or --help"
    read = argparse.ArgumentParser(usage=usage)
    read.print_help = lambda file=None: print(__doc__.strip(), file=file)
    read.add_argument("--release", type=int, default=NEWEST_RELEASE)
    java = os.path.realpath(shutil.which("java") or "java")
    read.add_argument("--jdk", nargs="?", const=os.environ.get("JAVA_HOME") or os.path.dirname(os.path.dirname(java)))
    read.add_argument("--modules")
    read.add_argument("--limit", type=int, default=2_000_000_000)
    read.add_argument("out")
    read.add_argument("paths", nargs="*")
    words = read.parse_intermixed_args()
    if words.jdk == "":
        read.error("--jdk of no folder")
    if not words.paths and not words.jdk:
        read.error("no PATH, and no JDK")
    if words.modules is not None and not words.jdk:
        read.error(f"--modules {words.modules} without --jdk")
    modules = [] if words.modules is None else words.modules.split(",")
    if "" in modules:
        read.error(f"an empty name in --modules {words.modules!r}")
    try:
        make(words, modules, os.path.realpath(words.out))
    except (Refused, OSError, subprocess.SubprocessError) as error:
        tell(error)
        return 2
    return 0


if __name__ == "__main__":
    sys.exit(main())
