import java.util.Arrays;
import java.util.Comparator;
import java.util.Random;

/** Sorting algorithms side by side. */
public class Sorting {
    interface Sorter {
        void sort(int[] a);
    }

    static void swap(int[] a, int i, int j) {
        int t = a[i];
        a[i] = a[j];
        a[j] = t;
    }

    static void bubble(int[] a) {
        for (int n = a.length; n > 1; n--) {
            for (int i = 1; i < n; i++) {
                if (a[i - 1] > a[i]) {
                    swap(a, i - 1, i);
                }
            }
        }
    }

    static void insertion(int[] a) {
        for (int i = 1; i < a.length; i++) {
            int x = a[i], j = i;
            for (; j > 0 && a[j - 1] > x; j--) {
                a[j] = a[j - 1];
            }
            a[j] = x;
        }
    }

    static void quick(int[] a, int from, int to) {
        if (from >= to) {
            return;
        }
        int pivot = a[(from + to) >>> 1], i = from, j = to;
        while (i <= j) {
            while (a[i] < pivot) {
                i++;
            }
            while (a[j] > pivot) {
                j--;
            }
            if (i <= j) {
                swap(a, i++, j--);
            }
        }
        quick(a, from, j);
        quick(a, i, to);
    }

    static int[] merge(int[] a) {
        if (a.length < 2) {
            return a;
        }
        int[] l = merge(Arrays.copyOfRange(a, 0, a.length / 2)), r = merge(Arrays.copyOfRange(a, a.length / 2, a.length)), out = new int[a.length];
        for (int i = 0, j = 0, k = 0; k < out.length; k++) {
            out[k] = j == r.length || i < l.length && l[i] <= r[j] ? l[i++] : r[j++];
        }
        return out;
    }

    static void heap(int[] a) {
        for (int i = a.length / 2 - 1; i >= 0; i--) {
            sift(a, i, a.length);
        }
        for (int n = a.length - 1; n > 0; n--) {
            swap(a, 0, n);
            sift(a, 0, n);
        }
    }

    static void sift(int[] a, int i, int n) {
        for (int c = 2 * i + 1; c < n; c = 2 * i + 1) {
            if (c + 1 < n && a[c + 1] > a[c]) {
                c++;
            }
            if (a[i] >= a[c]) {
                return;
            }
            swap(a, i, c);
            i = c;
        }
    }

    static void counting(int[] a) {
        int[] counts = new int[100];
        for (int x : a) {
            counts[x]++;
        }
        int k = 0;
        for (int v = 0; v < 100; v++) {
            while (counts[v]-- > 0) {
                a[k++] = v;
            }
        }
    }

    public static void main(String[] args) {
        int[] data = new Random(2024).ints(25, 0, 100).toArray();
        System.out.println(Arrays.toString(data));
        int[] want = data.clone();
        Arrays.sort(want);
        String[] names = {"bubble", "insertion", "quick", "heap", "counting"};
        Sorter[] sorters = {Sorting::bubble, Sorting::insertion, a -> quick(a, 0, a.length - 1), Sorting::heap, Sorting::counting};
        for (int i = 0; i < names.length; i++) {
            int[] a = data.clone();
            sorters[i].sort(a);
            System.out.println(names[i] + " " + Arrays.equals(a, want));
        }
        System.out.println("merge " + Arrays.equals(merge(data), want));
        Integer[] boxed = Arrays.stream(data).boxed().toArray(Integer[]::new);
        Arrays.sort(boxed, Comparator.comparing((Integer x) -> x % 10).thenComparing(Comparator.reverseOrder()));
        System.out.println(Arrays.toString(boxed));
    }
}
