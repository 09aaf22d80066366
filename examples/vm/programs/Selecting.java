import java.lang.invoke.MethodHandle;
import java.lang.invoke.MethodHandles;
import java.lang.invoke.MethodType;
import java.lang.reflect.InvocationTargetException;
import java.lang.reflect.Method;
import java.util.List;

/** Calls that no code makes: by reflection and by method handles, of methods that are overridden, private, static, of interfaces and of arrays. */
class Selecting {
    interface Shape {
        int sides();

        default String told() {
            return "a shape of " + sides() + " sides";
        }
    }

    static class Polygon implements Shape {
        private final int count;

        Polygon(int count) {
            this.count = count;
        }

        public int sides() {
            return count;
        }

        String narrow() {
            return "polygon";
        }

        private String secret() {
            return "secret of " + count;
        }

        static String kind() {
            return "static of Polygon";
        }
    }

    static class Square extends Polygon {
        Square() {
            super(4);
        }

        @Override
        public String told() {
            return "a square";
        }

        @Override
        String narrow() {
            return "square";
        }

        public String secret() {
            return "no secret";
        }

        static String kind() {
            return "static of Square";
        }
    }

    static class Other implements Shape {
        public int sides() {
            throw new IllegalStateException("no sides");
        }
    }

    private static final MethodHandles.Lookup LOOKUP = MethodHandles.lookup();
    private static final MethodType TEXT = MethodType.methodType(String.class);

    private static void reflected() throws Exception {
        List<Shape> shapes = List.of(new Polygon(3), new Square(), new Polygon(6));
        for (String name : new String[] {"sides", "told"}) {
            Method method = Shape.class.getMethod(name);
            for (Shape shape : shapes) System.out.println(name + ": " + method.invoke(shape));
        }
        for (String name : new String[] {"narrow", "secret", "kind"}) {
            Method method = Polygon.class.getDeclaredMethod(name);
            for (Shape shape : shapes) System.out.println(name + ": " + method.invoke(shape));
        }
        System.out.println(Polygon.class.getDeclaredMethod("kind").invoke(null));
        System.out.println(Object.class.getMethod("getClass").invoke(new int[1]));
        System.out.println(Shape.class.getMethod("told").invoke(shapes.get(0)).equals(Object.class.getMethod("toString").invoke("x")));
        try {
            Shape.class.getMethod("told").invoke(new Other());
        } catch (InvocationTargetException thrown) {
            System.out.println(thrown.getCause());
        }
        try {
            Polygon.class.getDeclaredMethod("narrow").invoke("no polygon");
        } catch (IllegalArgumentException thrown) {
            System.out.println("IllegalArgumentException");
        }
        long sum = 0;
        Method sides = Shape.class.getMethod("sides");
        for (int i = 0; i < 3_000; i++) sum += (int) sides.invoke(shapes.get(i % 3));
        System.out.println(sum);
    }

    private static void handled() throws Throwable {
        MethodHandle told = LOOKUP.findVirtual(Shape.class, "told", TEXT);
        MethodHandle narrow = LOOKUP.findVirtual(Polygon.class, "narrow", TEXT);
        MethodHandle secret = LOOKUP.findVirtual(Polygon.class, "secret", TEXT);
        MethodHandle kind = LOOKUP.findStatic(Square.class, "kind", TEXT);
        MethodHandle make = LOOKUP.findConstructor(Polygon.class, MethodType.methodType(void.class, int.class));
        Polygon five = (Polygon) make.invokeExact(5);
        for (Polygon one : new Polygon[] {five, new Square()}) {
            System.out.println((String) told.invokeExact((Shape) one));
            System.out.println((String) narrow.invokeExact(one));
            System.out.println((String) secret.invokeExact(one));
        }
        System.out.println((String) kind.invokeExact());
        Object made = make.invoke((short) 7);
        System.out.println(told.invoke(made));
        System.out.println(told.bindTo(made).invoke());
        System.out.println(made.getClass() + " " + make.type() + " " + told.type());
        try {
            System.out.println(told.invoke((Object) "no shape"));
        } catch (ClassCastException thrown) {
            System.out.println("ClassCastException");
        }
        try {
            System.out.println(told.invoke((Shape) null));
        } catch (NullPointerException thrown) {
            System.out.println("NullPointerException");
        }
    }

    private interface Found {
        MethodHandle find() throws ReflectiveOperationException;
    }

    private static void refused(Found found) {
        try {
            System.out.println(found.find().type());
        } catch (ReflectiveOperationException thrown) {
            System.out.println(thrown.getClass());
        }
    }

    public static void main(String[] words) throws Throwable {
        reflected();
        handled();
        refused(() -> LOOKUP.findVirtual(Polygon.class, "none", TEXT));
        refused(() -> LOOKUP.findVirtual(Polygon.class, "kind", TEXT));
        refused(() -> LOOKUP.findStatic(Polygon.class, "narrow", TEXT));
        refused(() -> LOOKUP.findConstructor(Polygon.class, MethodType.methodType(void.class)));
        refused(() -> LOOKUP.findVirtual(String.class, "isLatin1", MethodType.methodType(boolean.class)));
        refused(() -> LOOKUP.findVirtual(Square.class, "hashCode", MethodType.methodType(int.class)));
        refused(() -> MethodHandles.lookup().findVirtual(Thread.class, "exit", MethodType.methodType(void.class)));
    }
}
