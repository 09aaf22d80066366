interface Upper {
    int f();
}

interface Lower extends Upper {}

interface Shown {
    int h();
}

class Two implements Shown {
    public int h() {
        return 2;
    }
}

interface Beside {
    int g();
}

class One implements Beside {
    public int g() {
        return 1;
    }
}

class Lambdas {
    static int upper(Upper upper) {
        return upper.f();
    }

    static int lower(Lower lower) {
        return lower.f();
    }

    static int shown(Shown shown) {
        return shown.h();
    }

    static int beside(Beside beside) {
        return beside.g();
    }

    static int run() {
        return lower(() -> 7) + shown(() -> 8);
    }
}
