package linkd;

import static java.lang.foreign.ValueLayout.JAVA_INT;

import java.lang.foreign.Arena;
import java.lang.foreign.FunctionDescriptor;
import java.lang.foreign.MemorySegment;
import java.lang.foreign.SymbolLookup;
import java.net.URISyntaxException;
import java.net.URL;
import java.nio.file.FileSystemNotFoundException;
import java.nio.file.Files;
import java.nio.file.Path;

/** Where the shared library is, and that it is one that this jar can call. */
final class Library {
    /** LINKD_VERSION of the header that this is written for. */
    private static final int VERSION = 12;

    private static final String WORDS = "linkd.library or LINKD_LIBRARY says where it is";

    private static SymbolLookup opened;

    private Library() {
    }

    /** The library's functions. It is opened once; where it can't be, each call says why. */
    static synchronized SymbolLookup open() {
        if (opened == null) {
            opened = open(path());
        }
        return opened;
    }

    /** The file that the property linkd.library names, or else the variable LINKD_LIBRARY, or else the one beside the jar. */
    private static Path path() {
        String named = System.getProperty("linkd.library", System.getenv("LINKD_LIBRARY"));
        Path path = named == null ? besideJar() : Path.of(named).toAbsolutePath();
        if (!Files.isRegularFile(path)) {
            throw new MissingLibraryException("there is no " + path + "; bindings/java/build.sh makes it, and " + WORDS);
        }
        return path;
    }

    /** The file beside the jar, or beside the folder that the package is in. */
    private static Path besideJar() {
        URL jar = Library.class.getProtectionDomain().getCodeSource().getLocation();
        try {
            return Path.of(jar.toURI()).resolveSibling("liblinkd.so");
        } catch (URISyntaxException | IllegalArgumentException | FileSystemNotFoundException fault) {
            throw new MissingLibraryException("nothing is beside " + jar + ", but " + WORDS);
        }
    }

    @SuppressWarnings("restricted")
    private static SymbolLookup open(Path path) {
        SymbolLookup library;
        try {
            library = SymbolLookup.libraryLookup(path, Arena.global());
        } catch (IllegalArgumentException fault) {
            throw new MissingLibraryException(path + " is no shared library");
        }
        int version = library.find("linkd_version").map(Library::version).orElse(0);
        if (version != VERSION) {
            throw new MissingLibraryException(path + " is of version " + version + " of linkd.h, and this jar of version " + VERSION);
        }
        return library;
    }

    @SuppressWarnings("restricted")
    private static int version(MemorySegment function) {
        try {
            return (int) java.lang.foreign.Linker.nativeLinker().downcallHandle(function, FunctionDescriptor.of(JAVA_INT)).invokeExact();
        } catch (Throwable fault) {
            throw new AssertionError("a call of C has thrown", fault);
        }
    }
}
