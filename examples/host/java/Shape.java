/** A shape. Twice as large, it has four times the area. */
public abstract class Shape implements Measured {
    public int doubled() {
        return 4 * area();
    }
}
