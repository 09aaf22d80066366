import java.util.*;
import java.util.function.*;
import java.util.stream.*;

/** Streams and lambdas of all kinds. */
public class Streams {
    interface Shape { double area(); default String name() { return getClass().getSimpleName(); } }
    record Circle(double radius) implements Shape { public double area() { return Math.PI * radius * radius; } }
    record Square(double side) implements Shape { public double area() { return side * side; } }

    static int twice(int x) { return 2 * x; }
    int base = 100;
    int plus(int x) { return base + x; }

    public static void main(String[] args) {
        System.out.println(IntStream.rangeClosed(1, 20).filter(i -> i % 3 == 0).mapToObj(Integer::toString)
            .collect(Collectors.joining(",", "[", "]")));
        System.out.println(Stream.of("pear", "fig", "apple", "kiwi").sorted(Comparator.comparing(String::length)
            .thenComparing(Comparator.naturalOrder())).toList());
        Map<Integer, List<String>> by = Stream.of("a", "bb", "cc", "ddd", "e")
            .collect(Collectors.groupingBy(String::length, TreeMap::new, Collectors.toList()));
        System.out.println(by);
        System.out.println(Stream.iterate(1, x -> x * 2).limit(12).map(String::valueOf).reduce("", String::concat));
        System.out.println(IntStream.range(0, 1000).mapToLong(i -> (long) i * i).sum());
        System.out.println(DoubleStream.of(1.5, 2.5, 3.5).average().getAsDouble());
        List<Shape> shapes = List.of(new Circle(1), new Square(2), new Circle(0.5));
        shapes.forEach(shape -> System.out.println(shape + " " + shape.name()));
        System.out.println(shapes.stream().mapToDouble(Shape::area).max().getAsDouble());
        System.out.println(shapes.stream().collect(Collectors.partitioningBy(s -> s instanceof Circle, Collectors.counting())));
        Streams self = new Streams();
        IntUnaryOperator op = self::plus;
        System.out.println(op.andThen(Streams::twice).applyAsInt(5));
        Supplier<List<String>> make = ArrayList::new;
        List<String> made = make.get();
        made.add("x");
        System.out.println(made);
        Function<Integer, int[]> array = int[]::new;
        System.out.println(array.apply(4).length);
        BiFunction<Integer, Long, Double> mixed = (a, b) -> a * 1.0 + b;
        System.out.println(mixed.apply(3, 4L));
        Runnable r = () -> System.out.println("run " + self.base + " " + args.length);
        r.run();
        System.out.println(Arrays.stream(new int[] {5, 3, 9}).boxed().sorted(Collections.reverseOrder()).map(i -> "<" + i + ">")
            .collect(Collectors.toList()));
        System.out.println(Stream.of(List.of(1, 2), List.of(3)).flatMap(List::stream).mapToInt(Integer::intValue).summaryStatistics());
        System.out.println("hello world".chars().mapToObj(c -> (char) c).filter(Character::isLetter).distinct().count());
        Optional<String> o = Stream.of("q", "w").filter(s -> s.equals("w")).findFirst();
        System.out.println(o.map(String::toUpperCase).orElse("none"));
        System.out.println(Stream.of(1, 2, 3, 4).takeWhile(i -> i < 4).skip(1).peek(i -> System.out.print("p" + i + " ")).count());
        System.out.println(Collectors.class.getName());
        ToIntFunction<String> len = String::length;
        IntFunction<String> rep = "ab"::repeat;
        System.out.println(rep.apply(len.applyAsInt("xyz")));
        Callback<String> c = s -> s + "!";
        System.out.println(c.call("generic") + c.twice("y"));
    }
    interface Callback<T extends Comparable<T>> { T call(T x); default T twice(T x) { return call(call(x)); } }
}
