import java.io.IOException;

/** A reader of class files that isn't ours. */
interface ClassCounter {
    /** The invocations of a class file. */
    Sites count(byte[] file) throws IOException;

    /** The counter with that name: asm or javap. */
    static ClassCounter named(String name) throws ReflectiveOperationException {
        // AsmReader isn't built where the JDK has no ASM.
        String program = name.equals("asm") ? "AsmReader" : "JavapReader";
        return (ClassCounter) Class.forName(program).getDeclaredConstructor().newInstance();
    }
}
