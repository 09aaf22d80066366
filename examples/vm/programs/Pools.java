import java.util.*;
import java.util.concurrent.*;

/** Wait and notify, executors, futures, latches, queues, interrupts, timers and parallel streams. */
public class Pools {
    static class Buffer {
        private final int[] items = new int[3];
        private int count, in, out;
        synchronized void put(int x) throws InterruptedException {
            while (count == items.length) wait();
            items[in] = x;
            in = (in + 1) % items.length;
            count++;
            notifyAll();
        }
        synchronized int take() throws InterruptedException {
            while (count == 0) wait();
            int x = items[out];
            out = (out + 1) % items.length;
            count--;
            notifyAll();
            return x;
        }
    }
    public static void main(String[] args) throws Exception {
        Buffer buffer = new Buffer();
        Thread producer = new Thread(() -> { try { for (int i = 1; i <= 500; i++) buffer.put(i); buffer.put(-1); } catch (InterruptedException e) { } });
        long[] sum = new long[1];
        Thread consumer = new Thread(() -> { try { for (int x; (x = buffer.take()) >= 0; ) sum[0] += x; } catch (InterruptedException e) { } });
        consumer.start();
        producer.start();
        producer.join();
        consumer.join();
        System.out.println("sum " + sum[0]);
        ExecutorService pool = Executors.newFixedThreadPool(4);
        List<Future<Integer>> futures = new ArrayList<>();
        for (int i = 0; i < 20; i++) { int n = i; futures.add(pool.submit(() -> n * n)); }
        int total = 0;
        for (Future<Integer> f : futures) total += f.get();
        System.out.println("total " + total);
        pool.shutdown();
        System.out.println(pool.awaitTermination(5, TimeUnit.SECONDS));
        System.out.println(CompletableFuture.supplyAsync(() -> 20).thenCombine(CompletableFuture.supplyAsync(() -> 22), Integer::sum).get());
        CountDownLatch latch = new CountDownLatch(3);
        for (int i = 0; i < 3; i++) new Thread(latch::countDown).start();
        latch.await();
        BlockingQueue<String> queue = new LinkedBlockingQueue<>(2);
        new Thread(() -> { try { for (String s : "a b c d e".split(" ")) queue.put(s); } catch (InterruptedException e) { } }).start();
        StringBuilder text = new StringBuilder();
        for (int i = 0; i < 5; i++) text.append(queue.take());
        System.out.println(text);
        Thread sleeper = new Thread(() -> {
            try {
                Thread.sleep(100000);
            } catch (InterruptedException e) {
                System.out.println("interrupted " + Thread.currentThread().isInterrupted());
            }
        });
        sleeper.start();
        Thread.sleep(10);
        sleeper.interrupt();
        sleeper.join();
        ScheduledExecutorService timer = Executors.newScheduledThreadPool(1);
        System.out.println(timer.schedule(() -> "later", 20, TimeUnit.MILLISECONDS).get());
        timer.shutdownNow();
        Object lock = new Object();
        try { lock.notify(); } catch (IllegalMonitorStateException e) { System.out.println(e.getMessage()); }
        System.out.println(java.util.stream.IntStream.range(0, 1000).parallel().sum());
    }
}
