package linkd;

/**
 * An invocation in the code of a class's method: what {@link Linker#request} takes.
 *
 * @param method the method's place among those that the class declares
 * @param pc in bytes from the code's start
 * @param instruction what invokes there
 */
public record Invocation(int method, int pc, Instruction instruction) {
}
