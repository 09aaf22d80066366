import java.lang.invoke.MethodHandle;

abstract class Digit {
    abstract int value();
}

class One extends Digit {
    int value() {
        return 1;
    }
}

class Two extends Digit {
    int value() {
        return 2;
    }
}

class Three extends Digit {
    int value() {
        return 3;
    }
}

class Four extends Digit {
    int value() {
        return 4;
    }
}

class Five extends Digit {
    int value() {
        return 5;
    }
}

class Six extends Digit {
    int value() {
        return 6;
    }
}

class Seven extends Digit {
    int value() {
        return 7;
    }
}

class Eight extends Digit {
    int value() {
        return 8;
    }
}

class Nine extends Digit {
    int value() {
        return 9;
    }
}

class Forms {
    static int zero() {
        return 0;
    }

    static int sum(Digit digit) {
        return digit.value() + zero();
    }

    // The Object of lang has no toString.
    static String text(Digit digit) {
        return digit.toString();
    }

    static Object call(MethodHandle handle, Object[] arguments) throws Throwable {
        return handle.invokeExact(arguments);
    }

    // Whole.Part.hidden wasn't private when this was compiled.
    static int ask(Whole.Part part) {
        return part.hidden();
    }
}
