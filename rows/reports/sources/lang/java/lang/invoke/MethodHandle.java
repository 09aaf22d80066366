package java.lang.invoke;

public class MethodHandle {
    public Object invokeExact(Object... arguments) {
        return null;
    }
}
