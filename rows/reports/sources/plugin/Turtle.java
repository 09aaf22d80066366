class Turtle extends Animal implements Shape {
    int legs() {
        return 4;
    }

    public int area() {
        return 9;
    }
}
