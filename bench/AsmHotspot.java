import java.io.IOException;
import java.lang.reflect.Field;
import java.lang.reflect.InvocationTargetException;
import java.lang.reflect.Method;
import java.nio.file.Files;
import java.nio.file.Path;
import java.util.HashMap;
import java.util.HexFormat;
import java.util.List;
import java.util.Map;
import jdk.internal.org.objectweb.asm.ClassReader;
import jdk.internal.org.objectweb.asm.ClassVisitor;
import jdk.internal.org.objectweb.asm.ClassWriter;
import jdk.internal.org.objectweb.asm.MethodVisitor;
import jdk.internal.org.objectweb.asm.Opcodes;

/**
 * What a JVM does at an invocation in sketched classes.
 *
 * <p>{@code AsmHotspot tell LINES} reads the class files of LINES, in hexadecimal. It writes code into them: each method with a code, other
 * than {@code call}, tells its name when it runs. It prints a line for each class, with its name and its file in hexadecimal. It needs ASM.
 *
 * <p>{@code AsmHotspot run TOLD CALLER TIMES RECEIVER..} needs no ASM. It defines the classes of those printed lines by one loader. It
 * makes an object of each RECEIVER without a constructor, none for {@code null}. CALLER's static method {@code call} invokes on each in
 * turn, TIMES times. It prints what came of the last time: {@code C.m}, or the error's name. Of an inherited method without such a code it
 * prints only that it returned. It needs {@code -XX:-BytecodeVerificationRemote}, since no receiver is cast.
 */
public final class AsmHotspot {
    private static String ran;

    private AsmHotspot() {}

    /** What the methods of the classes call. */
    public static void ran(String method) {
        ran = method;
    }

    /** Has `call` push its parameter before each invocation, and each other method tell its name. */
    private static final class Telling extends ClassVisitor {
        private String owner;

        Telling(ClassWriter writer) {
            super(Opcodes.ASM8, writer);
        }

        @Override
        public void visit(int version, int flags, String name, String signature, String superclass, String[] interfaces) {
            owner = name;
            super.visit(version, flags, name, signature, superclass, interfaces);
        }

        @Override
        public MethodVisitor visitMethod(int flags, String name, String type, String signature, String[] thrown) {
            boolean isCall = name.equals("call");
            String told = owner + "." + name;
            return new MethodVisitor(Opcodes.ASM8, super.visitMethod(flags, name, type, signature, thrown)) {
                @Override
                public void visitCode() {
                    super.visitCode();
                    if (!isCall) {
                        super.visitLdcInsn(told);
                        super.visitMethodInsn(Opcodes.INVOKESTATIC, "AsmHotspot", "ran", "(Ljava/lang/String;)V", false);
                    }
                }

                @Override
                public void visitMethodInsn(int opcode, String of, String called, String calledType, boolean isInterface) {
                    super.visitVarInsn(Opcodes.ALOAD, 0);
                    super.visitMethodInsn(opcode, of, called, calledType, isInterface);
                    if (!calledType.endsWith("V")) {
                        super.visitInsn(Opcodes.POP);
                    }
                }

                @Override
                public void visitMaxs(int stack, int locals) {
                    super.visitMaxs(1, 1);
                }
            };
        }
    }

    private static void tell(Path lines) throws IOException {
        for (String line : Files.readAllLines(lines)) {
            ClassReader reader = new ClassReader(HexFormat.of().parseHex(line));
            ClassWriter writer = new ClassWriter(0);
            reader.accept(new Telling(writer), 0);
            System.out.println(reader.getClassName() + " " + HexFormat.of().formatHex(writer.toByteArray()));
        }
    }

    /** The classes of the printed lines, by name. */
    private static final class Sketches extends ClassLoader {
        private final Map<String, byte[]> files = new HashMap<>();

        Sketches(Path told) throws IOException {
            for (String line : Files.readAllLines(told)) {
                String[] words = line.split(" ");
                files.put(words[0].replace('/', '.'), HexFormat.of().parseHex(words[1]));
            }
        }

        @Override
        protected Class<?> findClass(String name) throws ClassNotFoundException {
            byte[] file = files.get(name);
            if (file == null) {
                throw new ClassNotFoundException(name);
            }
            return defineClass(name, file, 0, file.length);
        }
    }

    private static Object made(Class<?> of) throws ReflectiveOperationException {
        Class<?> unsafe = Class.forName("sun.misc.Unsafe");
        Field field = unsafe.getDeclaredField("theUnsafe");
        field.setAccessible(true);
        return unsafe.getMethod("allocateInstance", Class.class).invoke(field.get(null), of);
    }

    private static String came(Method call, Object receiver) throws ReflectiveOperationException {
        ran = "returned";
        try {
            call.invoke(null, receiver);
            return ran;
        } catch (InvocationTargetException thrown) {
            return thrown.getCause().getClass().getSimpleName();
        }
    }

    private static void run(Path told, String caller, int times, List<String> receivers) throws IOException, ReflectiveOperationException {
        Sketches loader = new Sketches(told);
        Method call = loader.loadClass(caller.replace('/', '.')).getDeclaredMethod("call", Object.class);
        call.setAccessible(true);
        String last = "";
        for (String name : receivers) {
            Object receiver = name.equals("null") ? null : made(loader.loadClass(name.replace('/', '.')));
            for (int time = 0; time < times; time++) {
                last = came(call, receiver);
            }
        }
        System.out.println(last);
    }

    public static void main(String[] words) throws IOException, ReflectiveOperationException {
        if (words[0].equals("tell")) {
            tell(Path.of(words[1]));
        } else {
            run(Path.of(words[1]), words[2], Integer.parseInt(words[3]), List.of(words).subList(4, words.length));
        }
    }
}
