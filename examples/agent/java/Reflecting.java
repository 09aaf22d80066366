import java.lang.reflect.InvocationTargetException;
import java.lang.reflect.Method;
import java.math.BigDecimal;
import java.math.BigInteger;
import java.time.LocalDate;
import java.time.LocalDateTime;
import java.time.ZonedDateTime;
import java.util.ArrayList;
import java.util.Arrays;
import java.util.Collections;
import java.util.List;
import java.util.concurrent.CompletableFuture;
import java.util.concurrent.ConcurrentHashMap;
import java.util.stream.Stream;

/**
 * Calls more than 1,100 methods by reflection, in vain, and then makes a step of Dropping. Where sun.reflect.noInflation is true HotSpot makes
 * an accessor for each of the methods, by a loader of its own.
 */
final class Reflecting {
    private static final int LEAST = 1100;
    private static final List<Class<?>> CLASSES = List.of(String.class, Math.class, Character.class, Integer.class, Long.class, List.class,
            Stream.class, StringBuilder.class, BigInteger.class, BigDecimal.class, LocalDate.class, LocalDateTime.class, ZonedDateTime.class,
            CompletableFuture.class, ConcurrentHashMap.class, Arrays.class, Collections.class, Class.class);

    private Reflecting() {
    }

    /** The methods, which keep their accessors. */
    static List<Method> called() throws IllegalAccessException {
        List<Method> called = new ArrayList<>();
        for (Class<?> each : CLASSES) {
            for (Method method : each.getMethods()) {
                if (method.getDeclaringClass() == each && method.getParameterCount() > 0) {
                    called.add(method);
                    try {
                        method.invoke(null);
                    } catch (IllegalArgumentException | NullPointerException | InvocationTargetException wanted) {
                        continue;
                    }
                }
            }
        }
        return called;
    }

    /** Throws where these are too few methods. */
    public static void main(String[] words) throws Exception {
        List<Method> called = called();
        Dropping.step(2, new ArrayList<>());
        System.gc();
        Thread.sleep(500);
        if (called.size() < LEAST) {
            throw new AssertionError(called.size() + " methods");
        }
    }
}
