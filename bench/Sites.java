import java.nio.charset.StandardCharsets;
import java.util.Arrays;
import java.util.zip.CRC32;

/** How many invocations of each kind a class file has, and maybe more to compare by. */
final class Sites {
    static final String[] KINDS = {
        "invokevirtual", "invokespecial", "invokestatic", "invokeinterface", "invokedynamic"
    };

    final int[] counts = new int[KINDS.length];

    /** The check sum of the kinds and pcs in order, or -1 where it isn't known. */
    long pcs = -1;

    /** The check sum of the answer without its pcs and bootstrap numbers, or -1 where it isn't known. */
    long answer = -1;

    /** The kind with that name, as a place in {@link #KINDS}, or -1. */
    static int kind(String name) {
        for (int i = 0; i < KINDS.length; i++) {
            if (KINDS[i].equals(name)) {
                return i;
            }
        }
        return -1;
    }

    /** How this, of an answer, differs from what another reader found, or null. */
    String difference(Sites other) {
        if (!Arrays.equals(counts, other.counts)) {
            return "linkd " + Arrays.toString(counts) + ", other " + Arrays.toString(other.counts);
        }
        if (other.pcs >= 0 && pcs != other.pcs) {
            return "the pcs of the invocations";
        }
        if (other.answer >= 0 && answer != other.answer) {
            return "the flags, names or types";
        }
        return null;
    }

    /** One more instruction, for the check sum of the pcs. */
    static void add(CRC32 sum, int kind, int pc) {
        sum.update(kind);
        sum.update(pc >> 8);
        sum.update(pc);
    }

    @Override
    public String toString() {
        StringBuilder text = new StringBuilder();
        for (int count : counts) {
            text.append(count).append(' ');
        }
        return text.append(pcs).append(' ').append(answer).toString();
    }

    static Sites parse(String[] words, int from) {
        Sites sites = new Sites();
        for (int i = 0; i < KINDS.length; i++) {
            sites.counts[i] = Integer.parseInt(words[from + i]);
        }
        sites.pcs = Long.parseLong(words[from + KINDS.length]);
        sites.answer = Long.parseLong(words[from + KINDS.length + 1]);
        return sites;
    }

    private static final byte[] KIND = "\"kind\":\"".getBytes(StandardCharsets.US_ASCII);
    private static final byte[] PC = "\"pc\":".getBytes(StandardCharsets.US_ASCII);
    private static final byte[] BOOTSTRAP = "\"bootstrap\":".getBytes(StandardCharsets.US_ASCII);

    private static boolean stands(byte[] text, int at, byte[] word) {
        if (text.length - at < word.length) {
            return false;
        }
        for (int i = 0; i < word.length; i++) {
            if (text[at + i] != word[i]) {
                return false;
            }
        }
        return true;
    }

    /**
     * What an answer of {@code linkd scan} tells. Inside a JSON string a quote stands behind a backslash, so "kind":,
     * "pc": and "bootstrap": can be nothing but keys.
     */
    static Sites of(byte[] line) {
        Sites sites = new Sites();
        CRC32 pcs = new CRC32();
        CRC32 rest = new CRC32();
        int kind = -1;
        int kept = 0;
        int at = 0;
        while (at < line.length) {
            if (line[at] != '"') {
                at++;
            } else if (stands(line, at, KIND)) {
                int start = at + KIND.length;
                int end = start;
                while (line[end] != '"') {
                    end++;
                }
                kind = kind(new String(line, start, end - start, StandardCharsets.US_ASCII));
                sites.counts[kind]++;
                at = end + 1;
            } else if (stands(line, at, PC) || stands(line, at, BOOTSTRAP)) {
                boolean isPc = line[at + 1] == 'p';
                int end = at + (isPc ? PC : BOOTSTRAP).length;
                int number = 0;
                while (line[end] >= '0' && line[end] <= '9') {
                    number = 10 * number + line[end] - '0';
                    end++;
                }
                if (isPc) {
                    add(pcs, kind, number);
                }
                rest.update(line, kept, at - kept);
                kept = end + 1;
                at = end + 1;
            } else {
                at++;
            }
        }
        rest.update(line, kept, line.length - kept);
        sites.pcs = pcs.getValue();
        sites.answer = rest.getValue();
        return sites;
    }
}
