import java.util.*;

/** Sorts of a hundred thousand elements, by an interface of its own and by those of java.util. */
public class Sorting {
    interface Order { int compare(int a, int b); }
    static void quick(int[] a, int low, int high, Order order) {
        if (low >= high) return;
        int pivot = a[(low + high) >>> 1], i = low, j = high;
        while (i <= j) {
            while (order.compare(a[i], pivot) < 0) i++;
            while (order.compare(a[j], pivot) > 0) j--;
            if (i <= j) { int t = a[i]; a[i] = a[j]; a[j] = t; i++; j--; }
        }
        quick(a, low, j, order);
        quick(a, i, high, order);
    }
    public static void main(String[] args) {
        int n = 100000;
        int[] a = new int[n], b, c;
        long seed = 12345;
        for (int i = 0; i < n; i++) { seed = seed * 6364136223846793005L + 1442695040888963407L; a[i] = (int) (seed >>> 33) % 1000000; }
        b = a.clone();
        c = a.clone();
        quick(a, 0, n - 1, (x, y) -> Integer.compare(x, y));
        Arrays.sort(b);
        Integer[] boxed = new Integer[n];
        for (int i = 0; i < n; i++) boxed[i] = c[i];
        Arrays.sort(boxed, Comparator.comparing((Integer x) -> x).reversed());
        List<String> texts = new ArrayList<>();
        for (int i = 0; i < 20000; i++) texts.add("s" + c[i]);
        Collections.sort(texts);
        System.out.println(Arrays.equals(a, b) + " " + a[0] + " " + a[n / 2] + " " + a[n - 1] + " " + boxed[0] + " " + boxed[n - 1]);
        System.out.println(texts.get(0) + " " + texts.get(10000) + " " + texts.get(19999));
        quick(b, 0, n - 1, (x, y) -> y - x);
        System.out.println(b[0] + " " + b[n - 1]);
    }
}
