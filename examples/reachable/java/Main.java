import java.util.ArrayList;
import java.util.Collections;
import java.util.HashMap;
import java.util.List;
import java.util.Map;
import java.util.TreeMap;
import java.util.function.IntUnaryOperator;
import java.util.function.Supplier;
import java.util.function.ToIntFunction;

/** Calls by each form of link, on objects of some of the classes that there are. */
public final class Main {
    static int sum;

    private Main() {
    }

    interface Shape {
        int area();

        default int twice() {
            return 2 * area();
        }
    }

    /** Made in main. */
    static final class Circle implements Shape {
        @Override
        public int area() {
            return 3;
        }
    }

    /** Made in main; its default method is its own. */
    static final class Square implements Shape {
        @Override
        public int area() {
            return 4;
        }

        @Override
        public int twice() {
            return 9;
        }
    }

    /** Made by nobody. */
    static final class Unmade implements Shape {
        @Override
        public int area() {
            return Unreachable.area();
        }
    }

    /** Its method is called by what isn't reachable alone. */
    static final class Unreachable {
        static int area() {
            return 5;
        }
    }

    /** Ten constants, of classes of their own, so that calls of `next` are megamorphic. They are made as the enumeration is initialized. */
    enum Step {
        ZERO { @Override int next() { return 0; } },
        ONE { @Override int next() { return 1; } },
        TWO { @Override int next() { return 2; } },
        THREE { @Override int next() { return 3; } },
        FOUR { @Override int next() { return 4; } },
        FIVE { @Override int next() { return 5; } },
        SIX { @Override int next() { return 6; } },
        SEVEN { @Override int next() { return 7; } },
        EIGHT { @Override int next() { return 8; } },
        NINE { @Override int next() { return 9; } };

        abstract int next();
    }

    abstract static class Number {
        abstract int value();
    }

    static class Number0 extends Number { @Override int value() { return 0; } }
    static class Number1 extends Number { @Override int value() { return 1; } }
    static class Number2 extends Number { @Override int value() { return 2; } }
    static class Number3 extends Number2 { @Override int value() { return 3 + super.value(); } }
    static class Number4 extends Number { @Override int value() { return 4; } }
    static class Number5 extends Number { @Override int value() { return 5; } }
    static class Number6 extends Number { @Override int value() { return 6; } }
    static class Number7 extends Number { @Override int value() { return 7; } }
    static class Number8 extends Number { @Override int value() { return 8; } }
    static class Number9 extends Number1 { }

    /** Initialized by a read of its field alone; it makes the only object of its kind. */
    static final class Holder {
        static final Supplier<String> KEPT = new Supplier<>() {
            @Override
            public String get() {
                return "kept";
            }
        };
    }

    /** Its constructor makes an object of its superclass, besides the one of which it is a part. */
    static class Inner {
        int told() {
            return 1;
        }
    }

    static final class Outer extends Inner {
        private final Inner inner;

        Outer() {
            this(1);
        }

        private Outer(int depth) {
            this.inner = new Inner();
        }

        @Override
        int told() {
            return 2 + inner.told();
        }
    }

    /** Its default method runs for the object of a lambda alone. */
    interface Sized {
        int size();

        default int half() {
            return size() / 2;
        }
    }

    static final class Fixed implements Sized {
        @Override
        public int size() {
            return 10;
        }

        @Override
        public int half() {
            return 6;
        }
    }

    /** Made by a method reference alone. */
    static final class Referred implements Sized {
        @Override
        public int size() {
            return 12;
        }
    }

    abstract static class Base {
        abstract int told();
    }

    /** Its method is called by a method reference alone, which names that of its superclass. */
    static final class Derived extends Base {
        @Override
        int told() {
            return 13;
        }
    }

    static final class Worker extends Thread {
        @Override
        public void run() {
            sum += 1;
        }
    }

    static final class Task implements Runnable {
        @Override
        public void run() {
            sum += 2;
        }
    }

    /** Made and called by reflection alone. */
    public static final class Reflected {
        public int told() {
            return below();
        }

        private int below() {
            return 7;
        }
    }

    static int area(Shape shape) {
        return shape.area() + shape.twice();
    }

    static int applied(IntUnaryOperator operator) {
        return operator.applyAsInt(20);
    }

    static int doubled(int number) {
        return 2 * number;
    }

    static int half(Sized sized) {
        return sized.half();
    }

    static int references(int size) {
        Supplier<Sized> maker = Referred::new;
        ToIntFunction<Base> told = Base::told;
        return half(new Fixed()) + half(() -> size) + maker.get().size() + told.applyAsInt(new Derived());
    }

    static int collections() {
        List<String> names = new ArrayList<>(List.of("b", "a", "c"));
        Map<String, Integer> places = new HashMap<>();
        for (String name : names) {
            places.put(name, places.size());
        }
        Collections.sort(names, Collections.reverseOrder());
        Map<String, Integer> sorted = new TreeMap<>(places);
        int found = 0;
        for (Map.Entry<String, Integer> entry : sorted.entrySet()) {
            found += entry.getKey().hashCode() * entry.getValue();
        }
        return found + String.join(",", names).length() + String.format("%d of %s", found, names).length();
    }

    static int thrown(Object object) {
        try {
            return object.hashCode() + Integer.parseInt("none");
        } catch (NullPointerException | NumberFormatException exception) {
            return exception.getMessage().length();
        }
    }

    static int reflected() throws ReflectiveOperationException {
        Class<?> of = Class.forName("Main$Reflected");
        Object made = of.getConstructor().newInstance();
        return (Integer) of.getMethod("told").invoke(made);
    }

    public static void main(String[] words) throws Exception {
        sum += area(new Circle()) + area(new Square());
        for (Step step : Step.values()) {
            sum += step.next();
        }
        for (Number number : new Number[] {new Number0(), new Number3(), new Number9()}) {
            sum += number.value();
        }
        sum += Holder.KEPT.get().length() + new Outer().told();
        Thread worker = new Worker();
        worker.start();
        worker.join();
        Thread other = new Thread(new Task());
        other.start();
        other.join();
        int length = words.length;
        sum += applied(number -> number + length) + applied(Main::doubled) + references(length);
        sum += collections() + thrown(null) + thrown("there") + reflected();
        System.out.println("sum " + sum);
    }
}
