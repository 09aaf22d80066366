import java.util.*;
import java.util.concurrent.*;
import java.util.concurrent.atomic.*;

/** Synchronized methods, thread locals, atomics, concurrent collections, handlers of uncaught exceptions, locks. */
public class Threads {
    static int shared;
    static synchronized void add(int n) { shared += n; }
    public static void main(String[] args) throws Exception {
        Thread[] threads = new Thread[5];
        for (int i = 0; i < 5; i++) {
            int n = i;
            threads[i] = new Thread(() -> { for (int j = 0; j < 1000; j++) add(n); }, "worker-" + i);
            threads[i].start();
        }
        for (Thread t : threads) t.join();
        System.out.println(shared + " " + threads[0].getName() + " " + Thread.currentThread().getName() + " " + threads[1].isAlive());
        ThreadLocal<Integer> local = ThreadLocal.withInitial(() -> 7);
        System.out.println(local.get());
        AtomicInteger counter = new AtomicInteger();
        AtomicLong total = new AtomicLong(5);
        AtomicReference<String> ref = new AtomicReference<>("a");
        System.out.println(counter.incrementAndGet() + counter.addAndGet(5) + " " + total.getAndAdd(7) + total.get() + ref.getAndSet("b")
            + ref.compareAndSet("b", "c") + ref.get());
        ConcurrentHashMap<String, Integer> map = new ConcurrentHashMap<>();
        for (int i = 0; i < 1000; i++) map.merge("k" + i % 10, 1, Integer::sum);
        System.out.println(new TreeMap<>(map));
        ConcurrentLinkedQueue<Integer> queue = new ConcurrentLinkedQueue<>(List.of(1, 2, 3));
        queue.add(4);
        System.out.println(queue.poll() + " " + queue);
        AtomicIntegerArray array = new AtomicIntegerArray(3);
        array.getAndIncrement(1);
        System.out.println(array + " " + array.compareAndSet(1, 1, 9) + array.get(1));
        Thread failing = new Thread(() -> { throw new RuntimeException("in a thread"); });
        failing.setUncaughtExceptionHandler((t, e) -> System.out.println("uncaught " + e.getMessage()));
        failing.start();
        failing.join();
        java.util.concurrent.locks.ReentrantLock lock = new java.util.concurrent.locks.ReentrantLock();
        lock.lock();
        try { System.out.println(lock.isHeldByCurrentThread()); } finally { lock.unlock(); }
        CopyOnWriteArrayList<String> copy = new CopyOnWriteArrayList<>(List.of("x", "y"));
        for (String s : copy) copy.add(s + s);
        System.out.println(copy);
    }
}
