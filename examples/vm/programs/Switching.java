import java.lang.invoke.ConstantCallSite;
import java.lang.invoke.MethodHandle;
import java.lang.invoke.MethodHandles;
import java.lang.invoke.MethodType;
import java.lang.invoke.MutableCallSite;
import java.lang.invoke.SwitchPoint;
import java.lang.reflect.Method;
import java.util.concurrent.atomic.AtomicIntegerArray;

/** Four threads call through an invokedynamic whose call site gets other targets, and one that a switch point guards. Who is told of the
 * change calls the new target. */
public class Switching {
    static final int THREADS = 4;
    static volatile int version;
    static volatile boolean done;
    static final AtomicIntegerArray seen = new AtomicIntegerArray(THREADS);

    static int plus(int version, int x) {
        return 100 * version + x;
    }

    /** The target of this version. */
    static MethodHandle target(int version) throws Exception {
        MethodType type = MethodType.methodType(int.class, int.class, int.class);
        return MethodHandles.insertArguments(MethodHandles.lookup().findStatic(Switching.class, "plus", type), 0, version);
    }

    /** What runs is no older than what was told before the call, and at most the next of what was told after it. */
    static void work(int number, Method changing, Method guarded) {
        try {
            while (!done) {
                int before = version, one = (int) changing.invoke(null, 5) / 100, other = (int) guarded.invoke(null, 7), after = version;
                if (one < before || one > after + 1) throw new AssertionError(before + " to " + after + ": " + one);
                if (before > 0 && other != 107) throw new AssertionError(before + ": " + other + " by the switch point");
                seen.set(number, before);
            }
        } catch (Throwable e) {
            System.out.println("wrong: " + e);
            seen.set(number, Integer.MAX_VALUE);
        }
    }

    static void await() throws InterruptedException {
        for (int i = 0; i < THREADS; i++)
            while (seen.get(i) < version) Thread.sleep(0, 1000);
    }

    public static void main(String[] args) throws Throwable {
        MutableCallSite site = new MutableCallSite(target(0));
        SwitchPoint point = new SwitchPoint();
        CallSites.next = site;
        Method changing = new CallSites.Own().make("Target");
        changing.invoke(null, 0);
        CallSites.next = new ConstantCallSite(point.guardWithTest(target(0), target(1)));
        Method guarded = new CallSites.Own().make("Guarded");
        guarded.invoke(null, 0);
        Thread[] threads = new Thread[THREADS];
        for (int i = 0; i < THREADS; i++) {
            int number = i;
            seen.set(i, -1);
            threads[i] = new Thread(() -> work(number, changing, guarded));
            threads[i].start();
        }
        await();
        for (int i = 1; i <= 20; i++) {
            site.setTarget(target(i));
            MutableCallSite.syncAll(new MutableCallSite[] {site});
            if (i == 1) SwitchPoint.invalidateAll(new SwitchPoint[] {point});
            version = i;
            await();
        }
        done = true;
        for (Thread thread : threads) thread.join();
        System.out.println("20 targets");
    }
}
