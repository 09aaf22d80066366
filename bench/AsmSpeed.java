import java.io.IOException;
import java.lang.management.ManagementFactory;
import java.lang.management.ThreadMXBean;
import java.nio.file.Files;
import java.nio.file.Path;
import java.util.ArrayList;
import java.util.List;
import jdk.internal.org.objectweb.asm.ClassReader;
import jdk.internal.org.objectweb.asm.ClassVisitor;
import jdk.internal.org.objectweb.asm.Handle;
import jdk.internal.org.objectweb.asm.MethodVisitor;
import jdk.internal.org.objectweb.asm.Opcodes;

/**
 * How fast the JDK's own ASM reads the JDK's class files from memory, counting invocations.
 *
 * <p>{@code AsmSpeed FLAGS PASSES} reads all of them PASSES times with those flags of {@code ClassReader.accept} (6 is
 * SKIP_DEBUG and SKIP_FRAMES) and prints a line for the first pass, which includes the time of the JVM to compile what
 * runs, and one for the last.
 *
 * <p>Our own side is a program that holds the same class files in memory, calls {@code read_class} on each, counts the
 * sites of the methods, drops what it was given, and prints for the first pass and the last the same line:
 *
 * <pre>read_class, pass N: S s (C s of processor), B MB of class file a second, K invocations</pre>
 *
 * where N is the pass, S seconds of the wall clock for the pass alone (no reading of files, no hexadecimal, no JSON), C
 * those that the thread ran, B millions of bytes of class file over S, and K the invocations, as many as ASM's.
 * The files are those of {@link Lines}: at most 1,000,000 bytes, no module-info.class.
 */
final class AsmSpeed {
    private static final ThreadMXBean THREADS = ManagementFactory.getThreadMXBean();

    private AsmSpeed() {}

    // Warned of is a method that only a trial version of ASM has.
    @SuppressWarnings("deprecation")
    private static final class Calls extends ClassVisitor {
        private long count;

        Calls() {
            super(Opcodes.ASM8);
        }

        private final MethodVisitor code = new MethodVisitor(Opcodes.ASM8) {
            @Override
            public void visitMethodInsn(int opcode, String owner, String name, String type, boolean isInterface) {
                count++;
            }

            @Override
            public void visitInvokeDynamicInsn(String name, String type, Handle bootstrap, Object... arguments) {
                count++;
            }
        };

        // ASM calls one of these, by its version, and by default they refuse a visitor of an earlier interface.
        public void visitPermittedSubclassExperimental(String name) {}

        public void visitPermittedSubclass(String name) {}

        @Override
        public MethodVisitor visitMethod(int access, String name, String type, String sig, String[] exceptions) {
            return code;
        }
    }

    public static void main(String[] args) throws IOException {
        int flags = Integer.parseInt(args[0]);
        int passes = Integer.parseInt(args[1]);
        List<byte[]> files = new ArrayList<>();
        long bytes = 0;
        for (Path path : Lines.paths()) {
            byte[] file = Files.readAllBytes(path);
            if (!Lines.isModule(path) && file.length <= Lines.MOST_BYTES) {
                files.add(file);
                bytes += file.length;
            }
        }
        for (int pass = 1; pass <= passes; pass++) {
            Calls calls = new Calls();
            long start = System.nanoTime();
            long cpu = THREADS.getCurrentThreadCpuTime();
            for (byte[] file : files) {
                new ClassReader(file).accept(calls, flags);
            }
            double seconds = (System.nanoTime() - start) / 1e9;
            double ofThread = (THREADS.getCurrentThreadCpuTime() - cpu) / 1e9;
            if (pass == 1 || pass == passes) {
                double rate = bytes / 1e6 / seconds;
                System.out.printf("ASM, flags %d, pass %d: ", flags, pass);
                System.out.printf("%.2f s (%.2f s of processor), ", seconds, ofThread);
                System.out.printf("%.1f MB of class file a second, %d invocations%n", rate, calls.count);
            }
        }
    }
}
