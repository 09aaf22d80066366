package linkd;

import java.io.IOException;
import java.io.InputStream;
import java.io.UncheckedIOException;
import java.util.Optional;

/** Class files of the JDK that runs this program. They are of its version, so {@link Linker#defineUpTo} defines them. */
public final class ClassFiles {
    private ClassFiles() {
    }

    /**
     * The class file of this name, as the platform loader of this JDK finds it.
     *
     * @param name such as java/lang/String
     */
    public static Optional<byte[]> of(String name) {
        try (InputStream from = ClassLoader.getPlatformClassLoader().getResourceAsStream(name + ".class")) {
            return from == null ? Optional.empty() : Optional.of(from.readAllBytes());
        } catch (IOException fault) {
            throw new UncheckedIOException("the class file of " + name + " isn't read", fault);
        }
    }
}
