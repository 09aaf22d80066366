/** The class that comes later. Its area is rounded, so it says by itself what it is twice as large. */
class Triangle extends Shape {
    private final int base;
    private final int height;

    Triangle(int base, int height) {
        this.base = base;
        this.height = height;
    }

    @Override
    public int area() {
        return base * height / 2;
    }

    @Override
    public int doubled() {
        return base * height % 2 == 0 ? super.doubled() : 2 * base * height;
    }
}
