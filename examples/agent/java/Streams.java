import java.util.ArrayList;
import java.util.List;
import java.util.Map;
import java.util.TreeMap;
import java.util.function.IntUnaryOperator;
import java.util.stream.Collectors;
import java.util.stream.IntStream;

/** Lambdas, method references and streams over a few records. */
final class Streams {
    private Streams() {
    }

    /** A word with its place in a text. */
    record Word(String text, int place) implements Comparable<Word> {
        @Override
        public int compareTo(Word other) {
            return text.compareTo(other.text);
        }
    }

    static List<Word> words(String text) {
        List<Word> words = new ArrayList<>();
        for (String word : text.split(" ")) {
            words.add(new Word(word, words.size()));
        }
        return words;
    }

    static Map<Integer, List<String>> byLength(List<Word> words) {
        return words.stream()
                .sorted()
                .map(Word::text)
                .collect(Collectors.groupingBy(String::length, TreeMap::new, Collectors.toList()));
    }

    static int applied(IntUnaryOperator operator, int times) {
        return IntStream.range(0, times).map(operator).filter(number -> number % 2 == 0).sum();
    }

    /** Throws where a sum is wrong. */
    public static void main(String[] arguments) {
        Map<Integer, List<String>> lengths = byLength(words("each call runs the method that the link says or else throws"));
        int squares = applied(number -> number * number, 10);
        if (lengths.get(4).size() != 7 || squares != 0 + 4 + 16 + 36 + 64) {
            throw new AssertionError(lengths + ", " + squares);
        }
    }
}
