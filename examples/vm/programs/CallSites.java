import java.io.ByteArrayOutputStream;
import java.io.DataOutputStream;
import java.io.IOException;
import java.lang.invoke.CallSite;
import java.lang.invoke.ConstantCallSite;
import java.lang.invoke.MethodHandle;
import java.lang.invoke.MethodHandles;
import java.lang.invoke.MethodType;
import java.lang.invoke.MutableCallSite;
import java.lang.invoke.SwitchPoint;
import java.lang.invoke.VolatileCallSite;
import java.lang.invoke.WrongMethodTypeException;
import java.lang.reflect.InvocationTargetException;
import java.lang.reflect.Method;

/** Call sites of each kind, to which an invokedynamic is bound by a bootstrap method of the program, and switch points. */
public class CallSites {
    static final MethodType TYPE = MethodType.methodType(int.class, int.class);
    static CallSite next;

    public static CallSite bootstrap(MethodHandles.Lookup lookup, String name, MethodType type) {
        System.out.println("bootstrap of " + name + " in " + lookup.lookupClass().getName());
        return next;
    }

    /** A loader of one class, whose static method `call` is an invokedynamic that is bound by `bootstrap`. */
    static final class Own extends ClassLoader {
        Own() {
            super(CallSites.class.getClassLoader());
        }

        Method make(String name) throws Exception {
            byte[] bytes = write(name);
            return defineClass(name, bytes, 0, bytes.length).getMethod("call", int.class);
        }

        private static byte[] write(String name) throws IOException {
            ByteArrayOutputStream bytes = new ByteArrayOutputStream();
            DataOutputStream out = new DataOutputStream(bytes);
            out.writeInt(0xcafebabe);
            out.writeInt(61);
            out.writeShort(19);
            String[] texts = {name, "java/lang/Object", "call", "(I)I", "Code", "BootstrapMethods", "CallSites", "bootstrap",
                "(Ljava/lang/invoke/MethodHandles$Lookup;Ljava/lang/String;Ljava/lang/invoke/MethodType;)Ljava/lang/invoke/CallSite;", "site"};
            for (String text : texts) { // 1 to 10
                out.writeByte(1);
                out.writeUTF(text);
            }
            for (int of : new int[] {1, 2, 7}) { // 11 to 13: classes
                out.writeByte(7);
                out.writeShort(of);
            }
            out.write(new byte[] {12, 0, 8, 0, 9}); // 14: bootstrap's name and type
            out.write(new byte[] {10, 0, 13, 0, 14}); // 15: the method
            out.write(new byte[] {15, 6, 0, 15}); // 16: a handle of it
            out.write(new byte[] {12, 0, 10, 0, 4}); // 17: the site's name and type
            out.write(new byte[] {18, 0, 0, 0, 17}); // 18: the site
            out.write(new byte[] {0, 0x21, 0, 11, 0, 12, 0, 0, 0, 0, 0, 1}); // one method
            out.write(new byte[] {0, 9, 0, 3, 0, 4, 0, 1, 0, 5, 0, 0, 0, 19, 0, 1, 0, 1, 0, 0, 0, 7});
            out.write(new byte[] {26, (byte) 186, 0, 18, 0, 0, (byte) 172, 0, 0, 0, 0}); // iload_0, invokedynamic, ireturn
            out.write(new byte[] {0, 1, 0, 6, 0, 0, 0, 6, 0, 1, 0, 16, 0, 0});
            return bytes.toByteArray();
        }
    }

    static int twice(int x) {
        return 2 * x;
    }

    static int square(int x) {
        return x * x;
    }

    static int negative(int x) {
        return -x;
    }

    static boolean isOdd(int x) {
        return x % 2 != 0;
    }

    static MethodHandle find(String name) throws Exception {
        return MethodHandles.lookup().findStatic(CallSites.class, name, TYPE);
    }

    static Object call(Method method, int x) throws Exception {
        try {
            return method.invoke(null, x);
        } catch (InvocationTargetException e) {
            return e.getCause().getClass().getName();
        }
    }

    static void each(CallSite site, boolean change) throws Throwable {
        next = site;
        Method method = new Own().make("Dynamic");
        MethodHandle invoker = site.dynamicInvoker();
        System.out.println(site.getClass().getSimpleName() + " " + call(method, 5) + " " + call(method, 6) + " " + (int) invoker.invokeExact(7));
        if (!change) {
            try {
                site.setTarget(find("square"));
            } catch (UnsupportedOperationException e) {
                System.out.println("its target stays");
            }
            return;
        }
        for (String name : new String[] {"square", "negative", "twice"}) {
            site.setTarget(find(name));
            System.out.println(name + " " + call(method, 5) + " " + (int) invoker.invokeExact(7));
        }
        try {
            site.setTarget(MethodHandles.identity(long.class));
            System.out.println("no exception");
        } catch (WrongMethodTypeException e) {
            System.out.println("of another type; still " + call(method, 5));
        }
    }

    static void switches() throws Throwable {
        SwitchPoint first = new SwitchPoint(), second = new SwitchPoint();
        MethodHandle inner = second.guardWithTest(find("square"), find("negative"));
        MethodHandle guard = first.guardWithTest(find("twice"), inner);
        next = new ConstantCallSite(guard);
        Method method = new Own().make("Guarded");
        System.out.println("both valid: " + call(method, 5) + " " + (int) guard.invokeExact(6) + " " + first.hasBeenInvalidated());
        SwitchPoint.invalidateAll(new SwitchPoint[] {first});
        System.out.println("the first invalid: " + call(method, 5) + " " + (int) guard.invokeExact(6) + " " + first.hasBeenInvalidated());
        SwitchPoint.invalidateAll(new SwitchPoint[] {first, second});
        System.out.println("both invalid: " + call(method, 5) + " " + (int) guard.invokeExact(6) + " " + second.hasBeenInvalidated());
    }

    /** A call site invokes another one, an older one a younger one too. */
    static void chains() throws Throwable {
        MutableCallSite old = new MutableCallSite(find("twice")), young = new MutableCallSite(find("square"));
        next = old;
        Method byOld = new Own().make("Old");
        System.out.println("old " + call(byOld, 3));
        next = young;
        Method byYoung = new Own().make("Young");
        System.out.println("young " + call(byYoung, 3));
        young.setTarget(old.dynamicInvoker());
        System.out.println("young by old " + call(byYoung, 3));
        old.setTarget(find("negative"));
        System.out.println("young by old, which changed " + call(byYoung, 3));
        young.setTarget(find("square"));
        old.setTarget(young.dynamicInvoker());
        System.out.println("old by young " + call(byOld, 3));
        young.setTarget(find("twice"));
        System.out.println("old by young, which changed " + call(byOld, 3));
    }

    static void adapters() throws Throwable {
        MethodHandle odd = MethodHandles.lookup().findStatic(CallSites.class, "isOdd", MethodType.methodType(boolean.class, int.class));
        MethodHandle test = MethodHandles.guardWithTest(odd, find("negative"), find("square"));
        System.out.println((int) test.invokeExact(3) + " " + (int) test.invokeExact(4));
        MethodHandle boxed = test.asType(MethodType.methodType(Object.class, Integer.class));
        System.out.println((Object) boxed.invokeExact((Integer) 5) + " " + boxed.type());
        MethodHandle constant = MethodHandles.dropArguments(MethodHandles.constant(int.class, 17), 0, int.class);
        System.out.println((int) constant.invokeExact(1) + " " + (int) MethodHandles.filterReturnValue(find("twice"), find("square")).invokeExact(3));
        MethodHandle concat = MethodHandles.lookup().findVirtual(String.class, "concat", MethodType.methodType(String.class, String.class));
        System.out.println((String) concat.bindTo("bound ").invokeExact("receiver") + concat.invokeWithArguments(" and", " arguments"));
        MethodHandle inserted = MethodHandles.insertArguments(concat, 1, "!");
        System.out.println((String) inserted.invokeExact("inserted") + " " + inserted.type());
        try {
            System.out.println((long) inserted.invokeExact("x"));
        } catch (WrongMethodTypeException e) {
            System.out.println("wrong type");
        }
        try {
            MethodHandles.lookup().findStatic(CallSites.class, "missing", TYPE);
        } catch (NoSuchMethodException e) {
            System.out.println("no such method");
        }
    }

    public static void main(String[] args) throws Throwable {
        each(new ConstantCallSite(find("twice")), false);
        each(new MutableCallSite(find("twice")), true);
        each(new VolatileCallSite(find("twice")), true);
        next = new MutableCallSite(TYPE);
        Method method = new Own().make("Uninitialized");
        System.out.println(call(method, 1));
        next.setTarget(find("square"));
        System.out.println(call(method, 9));
        next = new MutableCallSite(MethodType.methodType(long.class, int.class));
        System.out.println("of another type: " + call(new Own().make("Differs"), 1));
        switches();
        chains();
        adapters();
    }
}
