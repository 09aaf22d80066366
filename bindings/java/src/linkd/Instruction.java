package linkd;

/** An instruction that invokes a method (JVMS SE 17 §6.5), by rising opcode. */
public enum Instruction {
    /** A method of an object, by the object's class. */
    INVOKEVIRTUAL,
    /** A method of an object, by the class that is named: an initializer, or one of a superclass. */
    INVOKESPECIAL,
    /** A static method. */
    INVOKESTATIC,
    /** An interface's method of an object, by the object's class. */
    INVOKEINTERFACE,
    /** What a call site of java.lang.invoke runs. */
    INVOKEDYNAMIC;

    private static final int FIRST = 182;

    /** The instruction's opcode, 182 to 186. */
    public int opcode() {
        return FIRST + ordinal();
    }

    static Instruction of(int opcode) {
        return values()[opcode - FIRST];
    }
}
