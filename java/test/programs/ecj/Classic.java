import java.util.ArrayList;
import java.util.Collections;
import java.util.Comparator;
import java.util.HashMap;
import java.util.Iterator;
import java.util.List;
import java.util.Map;

/** Java 5 as people wrote it: anonymous classes, for-each, boxing, varargs, no lambda. */
public class Classic {
    private static class Entry {
        private final String word;
        private int count;

        Entry(String word) {
            this.word = word;
        }
    }

    private static String join(String separator, Object... parts) {
        StringBuffer b = new StringBuffer();
        for (int i = 0; i < parts.length; i++) {
            if (i > 0) {
                b.append(separator);
            }
            b.append(parts[i]);
        }
        return b.toString();
    }

    public static void main(String[] args) {
        Map<String, Entry> entries = new HashMap<String, Entry>();
        String[] words = "a rose is a rose is a rose".split(" ");
        for (String w : words) {
            Entry e = entries.get(w);
            if (e == null) {
                e = new Entry(w);
                entries.put(w, e);
            }
            e.count++;
        }
        List<Entry> sorted = new ArrayList<Entry>(entries.values());
        Collections.sort(sorted, new Comparator<Entry>() {
            public int compare(Entry a, Entry b) {
                return a.count == b.count ? a.word.compareTo(b.word) : b.count - a.count;
            }
        });
        for (Iterator<Entry> i = sorted.iterator(); i.hasNext();) {
            Entry e = i.next();
            System.out.println(e.word + " " + e.count);
            if (e.count < 3) {
                i.remove();
            }
        }
        System.out.println(join(", ", sorted.size(), 'c', 5L, true, null, "end"));
        final int[] total = new int[1];
        Thread t = new Thread(new Runnable() {
            public void run() {
                for (int i = 0; i < 10; i++) {
                    total[0] += i;
                }
            }
        });
        t.start();
        try {
            t.join();
        } catch (InterruptedException e) {
            throw new RuntimeException(e);
        }
        Integer sum = total[0];
        sum++;
        System.out.println(sum + " " + (sum > 40 ? "more" : "less"));
        try {
            throw new Exception("old style");
        } catch (Exception e) {
            System.out.println(e);
        } finally {
            System.out.println("finally");
        }
    }
}
