import java.util.*;

/** Lists, maps, sets, queues, iterators, comparators. */
public class Containers {
    public static void main(String[] args) {
        List<Integer> list = new ArrayList<>(), linked = new LinkedList<>();
        Map<String, Integer> map = new HashMap<>(), kept = new LinkedHashMap<>();
        TreeMap<String, Integer> tree = new TreeMap<>(Comparator.reverseOrder());
        Deque<Integer> deque = new ArrayDeque<>();
        PriorityQueue<Integer> queue = new PriorityQueue<>(Collections.reverseOrder());
        Set<String> set = new TreeSet<>();
        for (int i = 0; i < 200; i++) {
            int value = i * 7919 % 211;
            list.add(value);
            linked.add(0, value);
            map.merge("k" + value % 17, value, Integer::sum);
            tree.put("t" + value, i);
            kept.put("n" + value, value);
            deque.addFirst(value);
            queue.add(value);
            set.add(Integer.toString(value, 16));
        }
        Collections.sort(list);
        System.out.println(list);
        System.out.println(linked.subList(10, 30));
        System.out.println(new TreeMap<>(map));
        System.out.println(tree.firstKey() + " " + tree.lastEntry());
        System.out.println(kept.keySet().iterator().next() + " " + kept.size());
        System.out.println(deque.peekFirst() + " " + deque.peekLast());
        StringBuilder text = new StringBuilder();
        while (queue.size() > 190) text.append(queue.poll()).append(' ');
        System.out.println(text);
        System.out.println(set);
        Iterator<Integer> at = list.iterator();
        while (at.hasNext()) if (at.next() % 2 == 0) at.remove();
        System.out.println(list.size() + " " + list.contains(7) + " " + list.indexOf(9));
        System.out.println(Arrays.toString(list.toArray(new Integer[0])).length());
        System.out.println(Collections.max(list) + " " + Collections.frequency(list, 3) + " " + Collections.nCopies(3, "x"));
        BitSet bits = new BitSet();
        for (int i = 0; i < 100; i += 3) bits.set(i);
        System.out.println(bits + " " + bits.cardinality());
        EnumMap<Kind, String> kinds = new EnumMap<>(Kind.class);
        for (Kind kind : Kind.values()) kinds.put(kind, kind.name().toLowerCase());
        System.out.println(kinds + " " + EnumSet.range(Kind.B, Kind.D) + " " + Kind.valueOf("C").ordinal());
        System.out.println(List.of(1, 2, 3) + " " + Set.of(5) + " " + Map.of("a", 1));
        try {
            for (Integer one : linked) if (one == 5) linked.remove(one);
        } catch (ConcurrentModificationException e) {
            System.out.println("caught " + e);
        }
        Object[] sorted = map.entrySet().stream().sorted(Map.Entry.comparingByValue()).toArray();
        System.out.println(Arrays.asList(sorted));
    }

    enum Kind { A, B, C, D, E }
}
