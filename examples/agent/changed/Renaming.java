import java.lang.instrument.ClassFileTransformer;
import java.lang.instrument.Instrumentation;
import java.nio.charset.StandardCharsets;
import java.security.ProtectionDomain;

/** An agent of Java that gives the method told of Changed.Below another name. */
public final class Renaming implements ClassFileTransformer {
    public static void premain(String words, Instrumentation instrumentation) {
        instrumentation.addTransformer(new Renaming());
    }

    @Override
    public byte[] transform(ClassLoader loader, String name, Class<?> type, ProtectionDomain domain, byte[] file) {
        if (!"Changed$Below".equals(name)) {
            return null;
        }
        String text = new String(file, StandardCharsets.ISO_8859_1);
        return text.replace("\0\4told", "\0\4mute").getBytes(StandardCharsets.ISO_8859_1);
    }
}
