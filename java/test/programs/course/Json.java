import java.util.*;

/** A small reader and writer of JSON. */
public class Json {
    private final String s;
    private int i;

    private Json(String s) {
        this.s = s;
    }

    static Object parse(String s) {
        Json j = new Json(s);
        Object v = j.value();
        j.skip();
        if (j.i < s.length()) {
            throw new IllegalArgumentException("trailing text at " + j.i);
        }
        return v;
    }

    private void skip() {
        while (i < s.length() && Character.isWhitespace(s.charAt(i))) {
            i++;
        }
    }

    private char next() {
        skip();
        if (i >= s.length()) {
            throw new IllegalArgumentException("unexpected end");
        }
        return s.charAt(i);
    }

    private void expect(char c) {
        if (next() != c) {
            throw new IllegalArgumentException("expected " + c + " at " + i);
        }
        i++;
    }

    private Object value() {
        char c = next();
        if (c == '{') {
            Map<String, Object> m = new LinkedHashMap<>();
            i++;
            while (next() != '}') {
                if (!m.isEmpty()) {
                    expect(',');
                }
                next();
                String k = string();
                expect(':');
                m.put(k, value());
            }
            i++;
            return m;
        }
        if (c == '[') {
            List<Object> l = new ArrayList<>();
            i++;
            while (next() != ']') {
                if (!l.isEmpty()) {
                    expect(',');
                }
                l.add(value());
            }
            i++;
            return l;
        }
        if (c == '"') {
            return string();
        }
        int start = i;
        while (i < s.length() && (Character.isLetterOrDigit(s.charAt(i)) || s.charAt(i) == '-')) {
            i++;
        }
        String w = s.substring(start, i);
        switch (w) {
            case "true":
                return true;
            case "false":
                return false;
            case "null":
                return null;
            default:
                return Long.valueOf(w);
        }
    }

    private String string() {
        expect('"');
        StringBuilder b = new StringBuilder();
        while (s.charAt(i) != '"') {
            char c = s.charAt(i++);
            if (c == '\\') {
                c = s.charAt(i++);
                switch (c) {
                    case 'n':
                        c = '\n';
                        break;
                    case 't':
                        c = '\t';
                        break;
                    case 'u':
                        c = (char) Integer.parseInt(s.substring(i, i + 4), 16);
                        i += 4;
                        break;
                    default:
                }
            }
            b.append(c);
        }
        i++;
        return b.toString();
    }

    static String write(Object o) {
        if (o instanceof Map) {
            StringJoiner j = new StringJoiner(",", "{", "}");
            for (Map.Entry<?, ?> e : ((Map<?, ?>) o).entrySet()) {
                j.add(write(e.getKey()) + ":" + write(e.getValue()));
            }
            return j.toString();
        }
        if (o instanceof List) {
            StringJoiner j = new StringJoiner(",", "[", "]");
            ((List<?>) o).forEach(x -> j.add(write(x)));
            return j.toString();
        }
        return o instanceof String ? '"' + ((String) o).replace("\\", "\\\\").replace("\"", "\\\"").replace("\n", "\\n") + '"' : String.valueOf(o);
    }

    public static void main(String[] args) {
        Object o = parse(" {\"name\": \"x\\ty\\n\", \"list\": [1, -2, [], {\"deep\": true}], \"none\": null, \"u\": \"\\u0041\\\"\" } ");
        System.out.println(write(o));
        System.out.println(((Map<?, ?>) o).get("list") + " " + o.equals(parse(write(o).replace("\t", "\\t"))));
        for (String bad : new String[] {"[1, 2", "{\"a\" 1}", "[1] 2", "[x]"}) {
            try {
                System.out.println(parse(bad));
            } catch (IllegalArgumentException e) {
                System.out.println(e.getClass().getSimpleName() + ": " + e.getMessage());
            }
        }
    }
}
