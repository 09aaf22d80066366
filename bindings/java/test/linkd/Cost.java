package linkd;

import java.io.IOException;
import java.nio.file.Files;
import java.nio.file.Path;
import java.util.ArrayList;
import java.util.List;
import java.util.Locale;
import java.util.function.Supplier;

/** What a call costs from Java, at a seat and on a linker. It does what bench/cost.c does, by the same words, and prints the same. */
final class Cost {
    private static final int CALLS = 5_000_000;
    private static final int TURNS = 7;

    private static long sum;

    private Cost() {
    }

    /** The nanoseconds of one call. */
    private static double seatTurn(Seat seat, SiteId site, ClassId receiver) {
        long start = System.nanoTime();
        for (int call = 0; call < CALLS; call++) {
            sum += ((Answer.Run) seat.call(site, receiver).orElseThrow()).type().number();
        }
        return (double) (System.nanoTime() - start) / CALLS;
    }

    private static double linkerTurn(Linker linker, SiteId site, ClassId receiver) {
        long start = System.nanoTime();
        for (int call = 0; call < CALLS; call++) {
            sum += ((Answer.Run) linker.call(site, receiver)).type().number();
        }
        return (double) (System.nanoTime() - start) / CALLS;
    }

    private static double best(Supplier<Double> turn) {
        double best = Double.MAX_VALUE;
        for (int i = 0; i < TURNS; i++) {
            best = Math.min(best, turn.get());
        }
        return best;
    }

    public static void main(String[] words) throws IOException {
        try (Linker linker = Linker.open(1)) {
            List<ClassId> classes = new ArrayList<>();
            for (int word = 3; word < words.length; word++) {
                classes.add(linker.define(Files.readAllBytes(Path.of(words[word]))));
            }
            ClassId last = classes.get(classes.size() - 1);
            ClassId receiver = classes.get(Integer.parseInt(words[2]));
            SiteId site = linker.request(last, Integer.parseInt(words[0]), Integer.parseInt(words[1]));
            linker.install(List.of(site));
            try (Seat seat = linker.seat()) {
                double bySeat = best(() -> seatTurn(seat, site, receiver));
                double byLinker = best(() -> linkerTurn(linker, site, receiver));
                System.out.printf(Locale.ROOT, "%.2f %.2f %d%n", bySeat, byLinker, sum);
            }
        }
    }
}
