import java.nio.charset.StandardCharsets;
import java.util.zip.CRC32;
import jdk.internal.org.objectweb.asm.ClassReader;
import jdk.internal.org.objectweb.asm.ClassVisitor;
import jdk.internal.org.objectweb.asm.Handle;
import jdk.internal.org.objectweb.asm.MethodVisitor;
import jdk.internal.org.objectweb.asm.Opcodes;

/**
 * Counts the invocations that the JDK's own ASM meets, and writes the answer that {@code linkd scan} must give, pcs and
 * bootstrap numbers aside, which ASM doesn't tell.
 */
final class AsmReader implements ClassCounter {
    @Override
    public Sites count(byte[] file) {
        Sites sites = new Sites();
        StringBuilder text = new StringBuilder();
        new ClassReader(file).accept(new Writer(sites, text), ClassReader.SKIP_DEBUG | ClassReader.SKIP_FRAMES);
        CRC32 sum = new CRC32();
        sum.update(text.toString().getBytes(StandardCharsets.UTF_8));
        sites.answer = sum.getValue();
        return sites;
    }

    // Warned of is a method that only a trial version of ASM has.
    @SuppressWarnings("deprecation")
    private static final class Writer extends ClassVisitor {
        private final Sites sites;
        private final StringBuilder text;
        private boolean first = true;

        Writer(Sites sites, StringBuilder text) {
            super(Opcodes.ASM8);
            this.sites = sites;
            this.text = text;
        }

        @Override
        public void visit(int version, int access, String name, String sig, String sup, String[] interfaces) {
            text.append("{\"class\":");
            string(text, name);
            text.append(",\"methods\":[");
        }

        @Override
        public MethodVisitor visitMethod(int access, String name, String type, String sig, String[] exceptions) {
            text.append(first ? "{\"flags\":" : ",{\"flags\":");
            first = false;
            // ASM has marks of its own above the 16 flags.
            text.append(access & 0xffff).append(",\"name\":");
            string(text, name);
            text.append(",\"sites\":[");
            return new CodeWriter(sites, text, type);
        }

        // ASM calls one of these, by its version, and by default they refuse a visitor of an earlier interface.
        public void visitPermittedSubclassExperimental(String name) {}

        public void visitPermittedSubclass(String name) {}

        @Override
        public void visitEnd() {
            text.append("]}");
        }
    }

    private static final class CodeWriter extends MethodVisitor {
        private final Sites sites;
        private final StringBuilder text;
        private final String type;
        private boolean first = true;

        CodeWriter(Sites sites, StringBuilder text, String type) {
            super(Opcodes.ASM8);
            this.sites = sites;
            this.text = text;
            this.type = type;
        }

        private void site(int kind, String owner, String name, String descriptor) {
            sites.counts[kind]++;
            text.append(first ? "{\"kind\":\"" : ",{\"kind\":\"").append(Sites.KINDS[kind]).append("\",\"name\":");
            first = false;
            string(text, name);
            if (owner != null) {
                text.append(",\"of\":");
                string(text, owner);
            }
            text.append(",\"type\":");
            string(text, descriptor);
            text.append('}');
        }

        @Override
        public void visitMethodInsn(int opcode, String owner, String name, String descriptor, boolean isInterface) {
            site(opcode - Opcodes.INVOKEVIRTUAL, owner, name, descriptor);
        }

        @Override
        public void visitInvokeDynamicInsn(String name, String descriptor, Handle bootstrap, Object... arguments) {
            site(4, null, name, descriptor);
        }

        @Override
        public void visitEnd() {
            text.append("],\"type\":");
            string(text, type);
            text.append('}');
        }
    }

    /** A JSON string: a lone surrogate is U+FFFD, and nothing is escaped but quotes, backslashes and controls. */
    private static void string(StringBuilder text, String name) {
        text.append('"');
        for (int i = 0; i < name.length(); i++) {
            char unit = name.charAt(i);
            if (Character.isSupplementaryCodePoint(name.codePointAt(i))) {
                text.appendCodePoint(name.codePointAt(i));
                i++;
            } else if (Character.isSurrogate(unit)) {
                text.append('\ufffd');
            } else if (unit == '"' || unit == '\\') {
                text.append('\\').append(unit);
            } else if (unit < ' ') {
                int common = "\b\t\n\f\r".indexOf(unit);
                text.append(common < 0 ? String.format("\\u%04x", (int) unit) : "\\" + "btnfr".charAt(common));
            } else {
                text.append(unit);
            }
        }
        text.append('"');
    }
}
