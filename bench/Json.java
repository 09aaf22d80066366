import java.util.ArrayList;
import java.util.LinkedHashMap;
import java.util.List;
import java.util.Map;

/** Reads the JSON that linkd writes, which has no spaces and whole numbers alone. */
final class Json {
    private final String text;
    private int at;

    private Json(String text) {
        this.text = text;
    }

    /** A map, a list, a text, a Long, a Boolean or null. */
    static Object read(String text) {
        Json json = new Json(text);
        try {
            Object value = json.value();
            if (json.at == text.length()) {
                return value;
            }
        } catch (StringIndexOutOfBoundsException e) {
            // It ends too early.
        }
        throw new IllegalArgumentException("no JSON: " + text.substring(0, Math.min(text.length(), 160)));
    }

    /** What stands under the key. */
    static Object get(Object map, String key) {
        return map instanceof Map<?, ?> members ? members.get(key) : null;
    }

    static List<?> list(Object value) {
        return value instanceof List<?> items ? items : List.of();
    }

    /** The number, or -1 where it is none. */
    static int number(Object value) {
        return value instanceof Long number ? Math.toIntExact(number) : -1;
    }

    private void expect(String word) {
        if (!text.startsWith(word, at)) {
            throw new IllegalArgumentException("no " + word + " at " + at);
        }
        at += word.length();
    }

    private Object value() {
        switch (text.charAt(at)) {
            case '{':
                return map();
            case '[':
                return items();
            case '"':
                return string();
            case 't':
                expect("true");
                return true;
            case 'f':
                expect("false");
                return false;
            case 'n':
                expect("null");
                return null;
            default:
                return number();
        }
    }

    private Map<String, Object> map() {
        Map<String, Object> members = new LinkedHashMap<>();
        expect("{");
        while (text.charAt(at) != '}') {
            if (!members.isEmpty()) {
                expect(",");
            }
            String key = string();
            expect(":");
            members.put(key, value());
        }
        at++;
        return members;
    }

    private List<Object> items() {
        List<Object> items = new ArrayList<>();
        expect("[");
        while (text.charAt(at) != ']') {
            if (!items.isEmpty()) {
                expect(",");
            }
            items.add(value());
        }
        at++;
        return items;
    }

    private Long number() {
        int start = at;
        while (at < text.length() && Character.digit(text.charAt(at), 10) >= 0) {
            at++;
        }
        return Long.valueOf(text.substring(start, at));
    }

    private String string() {
        expect("\"");
        int start = at;
        while (text.charAt(at) != '"' && text.charAt(at) != '\\') {
            at++;
        }
        if (text.charAt(at) == '"') {
            return text.substring(start, at++);
        }
        StringBuilder spelled = new StringBuilder(text.substring(start, at));
        while (text.charAt(at) != '"') {
            char unit = text.charAt(at++);
            if (unit == '\\') {
                unit = text.charAt(at++);
                if (unit == 'u') {
                    unit = (char) Integer.parseInt(text.substring(at, at + 4), 16);
                    at += 4;
                } else if ("btnfr".indexOf(unit) >= 0) {
                    unit = "\b\t\n\f\r".charAt("btnfr".indexOf(unit));
                }
            }
            spelled.append(unit);
        }
        at++;
        return spelled.toString();
    }
}
