package shop;

final class Reduced extends Plain {
    @Override
    public int of(int number) {
        return super.of(number) - number;
    }
}
