package shop;

/** What something costs. */
interface Price {
    int of(int number);

    default String told(int number) {
        return getClass().getName() + " " + of(number);
    }
}
