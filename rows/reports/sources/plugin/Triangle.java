class Triangle implements Shape {
    public int area() {
        return 1;
    }

    public int twice() {
        return 2;
    }
}
