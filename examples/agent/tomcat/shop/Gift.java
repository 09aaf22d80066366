package shop;

final class Gift implements Price {
    @Override
    public int of(int number) {
        return 0;
    }
}
