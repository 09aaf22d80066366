import java.io.IOException;
import java.nio.file.Files;
import java.nio.file.Path;
import java.util.ArrayDeque;
import java.util.ArrayList;
import java.util.Deque;
import java.util.HashMap;
import java.util.LinkedHashSet;
import java.util.List;
import java.util.Map;
import java.util.Set;
import java.util.TreeMap;
import java.util.stream.Stream;
import jdk.internal.org.objectweb.asm.ClassReader;
import jdk.internal.org.objectweb.asm.ClassVisitor;
import jdk.internal.org.objectweb.asm.Handle;
import jdk.internal.org.objectweb.asm.MethodVisitor;
import jdk.internal.org.objectweb.asm.Opcodes;

/**
 * What stands beside {@code linkd report}: a class-hierarchy analysis over the JDK's own ASM.
 *
 * <p>{@code AsmReport PATH..} reads each file below the paths whose name ends in .class, but for module-info.class, computes
 * of each class which classes are below it, and of each invokevirtual and invokeinterface how many methods its receivers run:
 * one, at most eight receivers, or more. It knows of names, descriptors, static and private methods, and of nothing
 * else: no packages, no nests, no access. So it counts nearly what linkd counts, and not exactly.
 */
final class AsmReport {
    private AsmReport() {}

    private record Call(int opcode, String owner, String name) {}

    private static final class Type {
        int access;
        String superclass;
        String[] interfaces;
        final Map<String, Integer> methods = new HashMap<>();
        final List<Call> calls = new ArrayList<>();
        final Set<Type> below = new LinkedHashSet<>();
    }

    private static final Map<String, Type> TYPES = new TreeMap<>();
    private static final Map<String, Long> TOTALS = new TreeMap<>();

    @SuppressWarnings("deprecation")
    private static final class Reader extends ClassVisitor {
        private Type type;

        Reader() {
            super(Opcodes.ASM8);
        }

        @Override
        public void visit(int version, int access, String name, String signature, String superclass, String[] interfaces) {
            type = new Type();
            type.access = access;
            type.superclass = superclass;
            type.interfaces = interfaces;
            TYPES.putIfAbsent(name, type);
        }

        @Override
        public MethodVisitor visitMethod(int access, String name, String descriptor, String signature, String[] exceptions) {
            type.methods.put(name + descriptor, access);
            return new MethodVisitor(Opcodes.ASM8) {
                @Override
                public void visitMethodInsn(int opcode, String owner, String called, String descriptor, boolean isInterface) {
                    type.calls.add(new Call(opcode, owner, called + descriptor));
                }

                @Override
                public void visitInvokeDynamicInsn(String called, String descriptor, Handle bootstrap, Object... arguments) {
                    type.calls.add(new Call(Opcodes.INVOKEDYNAMIC, null, called + descriptor));
                }
            };
        }

        // ASM calls one of these, by its version, and by default they refuse a visitor of an earlier interface.
        public void visitPermittedSubclassExperimental(String name) {}

        public void visitPermittedSubclass(String name) {}
    }

    private static void read(Path path) throws IOException {
        new ClassReader(Files.readAllBytes(path)).accept(new Reader(), ClassReader.SKIP_DEBUG | ClassReader.SKIP_FRAMES);
    }

    private static boolean isConcrete(Type type) {
        return (type.access & (Opcodes.ACC_INTERFACE | Opcodes.ACC_ABSTRACT)) == 0;
    }

    /** Every ancestor of the type, itself among them. */
    private static Set<Type> above(Type type) {
        Set<Type> found = new LinkedHashSet<>();
        Deque<Type> waiting = new ArrayDeque<>(List.of(type));
        while (!waiting.isEmpty()) {
            Type next = waiting.pop();
            if (found.add(next)) {
                for (String parent : next.interfaces) {
                    if (TYPES.containsKey(parent)) {
                        waiting.add(TYPES.get(parent));
                    }
                }
                if (next.superclass != null && TYPES.containsKey(next.superclass)) {
                    waiting.add(TYPES.get(next.superclass));
                }
            }
        }
        return found;
    }

    /** The type whose method of the name an object of this type runs, or none. */
    private static Type selected(Type type, String name) {
        for (Type next = type; next != null; next = next.superclass == null ? null : TYPES.get(next.superclass)) {
            Integer access = next.methods.get(name);
            if (access != null && (access & Opcodes.ACC_STATIC) == 0) {
                return next;
            }
        }
        for (Type next : above(type)) {
            Integer access = next.methods.get(name);
            if (access != null && (access & (Opcodes.ACC_STATIC | Opcodes.ACC_ABSTRACT)) == 0) {
                return next;
            }
        }
        return null;
    }

    /** Whether the method that is found from the class upward is private: it is never overridden. */
    private static boolean isPrivate(Type type, String name) {
        for (Type next = type; next != null; next = next.superclass == null ? null : TYPES.get(next.superclass)) {
            Integer access = next.methods.get(name);
            if (access != null) {
                return (access & Opcodes.ACC_PRIVATE) != 0;
            }
        }
        return false;
    }

    /** Whether linkd never links a call of this class. */
    private static boolean isNotLinkable(String owner) {
        return owner.startsWith("[") || owner.equals("java/lang/invoke/MethodHandle") || owner.equals("java/lang/invoke/VarHandle");
    }

    private static String shape(Call call, Map<String, String> known) {
        switch (call.opcode) {
            case Opcodes.INVOKESTATIC: return "invokestatic " + (isNotLinkable(call.owner) ? "not linkable" : "direct");
            case Opcodes.INVOKESPECIAL: return "invokespecial " + (isNotLinkable(call.owner) ? "not linkable" : "direct");
            case Opcodes.INVOKEDYNAMIC: return "invokedynamic waits for its call site";
            default: break;
        }
        if (isNotLinkable(call.owner)) {
            return (call.opcode == Opcodes.INVOKEVIRTUAL ? "invokevirtual " : "invokeinterface ") + "not linkable";
        }
        String kind = call.opcode == Opcodes.INVOKEVIRTUAL ? "invokevirtual " : "invokeinterface ";
        return known.computeIfAbsent(kind + call.owner + "." + call.name, key -> {
            Type owner = TYPES.get(call.owner);
            if (owner == null) {
                return kind + "waits for a class";
            }
            if (call.opcode == Opcodes.INVOKEVIRTUAL && isPrivate(owner, call.name)) {
                return kind + "direct";
            }
            Set<Type> methods = new LinkedHashSet<>();
            for (Type receiver : owner.below) {
                methods.add(selected(receiver, call.name));
                if (call.opcode == Opcodes.INVOKEINTERFACE && owner.below.size() > 8) {
                    return kind + "mega";
                }
            }
            if (owner.below.isEmpty()) {
                return kind + "no receivers";
            }
            if (methods.size() == 1 && call.opcode == Opcodes.INVOKEVIRTUAL) {
                return kind + "direct";
            }
            return kind + (owner.below.size() <= 8 ? "table" : "mega");
        });
    }

    public static void main(String[] paths) throws IOException {
        for (String path : paths) {
            try (Stream<Path> found = Files.walk(Path.of(path))) {
                for (Path file : (Iterable<Path>) found.sorted()::iterator) {
                    String name = file.getFileName().toString();
                    if (name.endsWith(".class") && !name.equals("module-info.class")) {
                        read(file);
                    }
                }
            }
        }
        for (Type type : TYPES.values()) {
            if (isConcrete(type)) {
                for (Type ancestor : above(type)) {
                    ancestor.below.add(type);
                }
            }
        }
        Map<String, String> known = new HashMap<>();
        for (Type type : TYPES.values()) {
            for (Call call : type.calls) {
                TOTALS.merge(shape(call, known), 1L, Long::sum);
            }
        }
        System.out.println(TYPES.size() + " classes");
        TOTALS.forEach((shape, count) -> System.out.println(shape + " " + count));
    }
}
