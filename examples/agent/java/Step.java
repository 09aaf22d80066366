/** What the application's loader has, and the classes of all other loaders implement. */
public interface Step {
    int next(int number);

    /** A method that some of them override. */
    default int twice(int number) {
        return next(next(number));
    }
}
