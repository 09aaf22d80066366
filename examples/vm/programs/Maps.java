import java.util.*;

/** Hash maps of some ten thousand entries, with keys of many classes. */
public class Maps {
    static final class Key {
        final int a, b;
        Key(int a, int b) { this.a = a; this.b = b; }
        @Override public int hashCode() { return a * 31 + b; }
        @Override public boolean equals(Object o) { return o instanceof Key && ((Key) o).a == a && ((Key) o).b == b; }
    }
    public static void main(String[] args) {
        Map<Integer, Integer> counts = new HashMap<>();
        int x = 1;
        for (int i = 0; i < 300000; i++) {
            x = x * 1103515245 + 12345;
            counts.merge((x >>> 16) % 5000, 1, Integer::sum);
        }
        int best = -1;
        for (Map.Entry<Integer, Integer> e : counts.entrySet()) if (best < 0 || e.getValue() > counts.get(best)) best = e.getKey();
        System.out.println(counts.size() + " " + best + " " + counts.get(best));
        Map<Key, String> keys = new HashMap<>();
        for (int i = 0; i < 50000; i++) keys.put(new Key(i % 300, i % 211), "v" + i);
        System.out.println(keys.size() + " " + keys.get(new Key(17, 200)));
        Map<Object, Integer> mixed = new HashMap<>();
        for (int i = 0; i < 20000; i++) {
            mixed.put(i, i);
            mixed.put((long) i, i);
            mixed.put("s" + i, i);
            mixed.put((double) i, i);
            mixed.put((char) i, i);
            mixed.put(new Key(i, i), i);
            mixed.put(i % 2 == 0, i);
            mixed.put(List.of(i % 10), i);
            mixed.put((short) i, i);
            mixed.put((byte) i, i);
        }
        long sum = 0;
        for (int i = 0; i < 20000; i += 7) sum += mixed.get(i) + mixed.get((long) i) + mixed.get("s" + i) + mixed.get((double) i) + mixed.get(new Key(i, i));
        System.out.println(mixed.size() + " " + sum + " " + mixed.get(true) + " " + mixed.get(List.of(3)));
        TreeMap<String, Integer> tree = new TreeMap<>();
        for (int i = 0; i < 20000; i++) tree.put("k" + (i * 7919L % 10007), i);
        System.out.println(tree.size() + " " + tree.ceilingKey("k5") + " " + tree.headMap("k2").size());
    }
}
