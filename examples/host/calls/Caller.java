class Caller {
    static String call(Animal animal) {
        return animal.name();
    }
}
