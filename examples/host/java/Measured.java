/** What has an area. */
public interface Measured {
    int area();
}
