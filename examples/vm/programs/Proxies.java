import java.lang.annotation.*;
import java.lang.invoke.*;
import java.lang.reflect.*;
import java.util.*;

/** Proxies, annotations and method handles. */
public class Proxies {
    @Retention(RetentionPolicy.RUNTIME) @interface Info { String value() default "none"; int count() default 3; Class<?> type() default Object.class; }
    interface Greeter { String greet(String name); int size(); }
    @Info("class") static class Marked {
        @Info(value = "field", count = 9) public int f;
        @Info(type = String.class) public void m() {}
    }
    static int twice(int x) { return x * 2; }
    public static void main(String[] args) throws Throwable {
        Greeter g = (Greeter) Proxy.newProxyInstance(Proxies.class.getClassLoader(), new Class<?>[] {Greeter.class},
            (self, method, list) -> method.getName().equals("size") ? 42 : method.getName() + " " + Arrays.toString(list));
        System.out.println(g.greet("you") + " " + g.size() + " " + Proxy.isProxyClass(g.getClass()));
        System.out.println(Marked.class.getAnnotation(Info.class).value() + " " + Marked.class.getField("f").getAnnotation(Info.class).count());
        System.out.println(Marked.class.getMethod("m").getAnnotation(Info.class).type());
        MethodHandle virtual = MethodHandles.lookup().findVirtual(String.class, "concat", MethodType.methodType(String.class, String.class));
        System.out.println((String) virtual.invokeExact("a", "b"));
        MethodHandle st = MethodHandles.lookup().findStatic(Proxies.class, "twice", MethodType.methodType(int.class, int.class));
        System.out.println((int) st.invokeExact(21) + " " + (Object) st.invoke((Integer) 4));
        MethodHandle size = MethodHandles.lookup().findVirtual(List.class, "size", MethodType.methodType(int.class));
        System.out.println((int) size.invoke(List.of(1, 2)) + " " + (int) size.invoke(new ArrayList<>(List.of(1))));
    }
}
