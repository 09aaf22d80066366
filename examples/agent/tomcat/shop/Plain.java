package shop;

class Plain implements Price {
    @Override
    public int of(int number) {
        return 10 * number;
    }
}
