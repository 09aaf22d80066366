interface Shape {
    int area();

    default int twice() {
        return area() + area();
    }
}

class Circle implements Shape {
    public int area() {
        return 3;
    }
}

class Square implements Shape {
    public int area() {
        return 4;
    }
}

abstract class Animal {
    abstract int legs();

    private int shoes() {
        return 2;
    }

    int pairs() {
        return legs() - shoes();
    }
}

class Dog extends Animal {
    int legs() {
        return 4;
    }
}

final class Puppy extends Dog {}

interface Unused {
    void none();
}

enum Color {
    RED
}

public class Shapes {
    static int sum(Shape shape, Animal animal, Dog dog, Puppy puppy, Unused unused, int[] numbers) {
        unused.none();
        return shape.twice() + animal.pairs() + dog.legs() + puppy.legs() + puppy.hashCode() + numbers.clone().length;
    }

    static Runnable run(Color color) {
        return () -> color.ordinal();
    }
}
