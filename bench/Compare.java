import java.io.BufferedReader;
import java.io.IOException;
import java.nio.charset.StandardCharsets;
import java.nio.file.Files;
import java.nio.file.Path;
import java.util.Arrays;

/**
 * Compares the answers of {@code linkd scan} with the counts of another reader, class by class.
 *
 * <p>{@code Compare NAMES ANSWERS COUNTS READER} compares the classes that COUNTS has; {@code Compare NAMES ANSWERS
 * modules} tests that each answer is the refusal of a module's file. The exit status is 1 on any difference or refusal.
 */
final class Compare {
    private static final int SHOWN = 10;
    private static final byte[] MODULE = "{\"refused\":\"ModuleFile\"}".getBytes(StandardCharsets.US_ASCII);

    private int classes;
    private int answers;
    private int refused;
    private int compared;
    private int different;
    private int byPcs;
    private int byAnswers;
    private final long[] ours = new long[Sites.KINDS.length];
    private final long[] theirs = new long[Sites.KINDS.length];

    private static boolean begins(byte[] line, String word) {
        byte[] bytes = word.getBytes(StandardCharsets.UTF_8);
        return line.length >= bytes.length && Arrays.equals(line, 0, bytes.length, bytes, 0, bytes.length);
    }

    private static String shown(byte[] line) {
        return new String(line, 0, Math.min(line.length, 160), StandardCharsets.UTF_8);
    }

    private void differs(String name, String how) {
        different++;
        if (different <= SHOWN) {
            System.out.println("differs: " + name + ": " + how);
        }
    }

    private void compare(String name, byte[] answer, Sites other) {
        compared++;
        Sites sites = Sites.of(answer);
        for (int i = 0; i < Sites.KINDS.length; i++) {
            ours[i] += sites.counts[i];
            theirs[i] += other.counts[i];
        }
        if (!begins(answer, "{\"class\":\"" + name + "\",\"methods\":[")) {
            differs(name, "the answer is " + shown(answer));
        } else if (sites.difference(other) != null) {
            differs(name, sites.difference(other));
        }
        byPcs += other.pcs >= 0 ? 1 : 0;
        byAnswers += other.answer >= 0 ? 1 : 0;
    }

    private void refuse(String name, byte[] answer) {
        refused++;
        if (refused <= SHOWN) {
            System.out.println("refused: " + name + ": " + shown(answer));
        }
    }

    private void classes(String names, String lines, String counts) throws IOException {
        try (BufferedReader name = Files.newBufferedReader(Path.of(names));
                LineReader line = new LineReader(Path.of(lines));
                BufferedReader count = Files.newBufferedReader(Path.of(counts))) {
            String next = count.readLine();
            String each;
            for (int i = 0; (each = name.readLine()) != null; i++) {
                classes++;
                String called = each.substring(0, each.lastIndexOf(' '));
                String[] words = next == null ? new String[0] : next.split(" ");
                boolean counted = words.length > 0 && Integer.parseInt(words[0]) == i;
                byte[] answer = line.next();
                if (answer == null) {
                    continue;
                }
                answers++;
                if (!begins(answer, "{\"class\":")) {
                    refuse(called, answer);
                } else if (counted) {
                    compare(called, answer, Sites.parse(words, 1));
                }
                if (counted) {
                    next = count.readLine();
                }
            }
            while (line.next() != null) {
                answers++;
            }
        }
    }

    private void print(String reader) {
        System.out.printf("%-16s%14s%14s%n", "", "linkd", reader);
        for (int i = 0; i < Sites.KINDS.length; i++) {
            System.out.printf("%-16s%14d%14d%n", Sites.KINDS[i], ours[i], theirs[i]);
        }
        System.out.printf("%-16s%14d%14d%n", "all", Arrays.stream(ours).sum(), Arrays.stream(theirs).sum());
        System.out.printf("%d classes, %d answers, %d refused%n", classes, answers, refused);
        System.out.printf("of %d compared with %s, %d differ; ", compared, reader, different);
        System.out.printf("all by kinds, %d also by pcs, %d by flags, names and types%n", byPcs, byAnswers);
    }

    /** How many module files are answered otherwise than they must. */
    private static int modules(String names, String lines) throws IOException {
        int all = 0;
        int wrong = 0;
        try (BufferedReader name = Files.newBufferedReader(Path.of(names));
                LineReader line = new LineReader(Path.of(lines))) {
            String each;
            while ((each = name.readLine()) != null) {
                all++;
                byte[] answer = line.next();
                if (!Arrays.equals(answer, MODULE)) {
                    wrong++;
                    if (wrong <= SHOWN) {
                        System.out.println(each + ": " + (answer == null ? "no answer" : shown(answer)));
                    }
                }
            }
            while (line.next() != null) {
                wrong++;
            }
        }
        System.out.printf("%d module files, %d not answered as ModuleFile%n", all, wrong);
        return wrong;
    }

    public static void main(String[] args) throws IOException {
        if (args[2].equals("modules")) {
            System.exit(modules(args[0], args[1]) == 0 ? 0 : 1);
        }
        Compare compare = new Compare();
        compare.classes(args[0], args[1], args[2]);
        compare.print(args[3]);
        boolean good = compare.different == 0 && compare.refused == 0 && compare.answers == compare.classes
                && compare.compared > 0;
        System.exit(good ? 0 : 1);
    }
}
