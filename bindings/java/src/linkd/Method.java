package linkd;

/**
 * A method of a class.
 *
 * @param type the class that declares it
 * @param method its place among those that the class declares
 */
public record Method(ClassId type, int method) {
}
