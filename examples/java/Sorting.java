/** Ways to sort ints, and one to sort bytes. */
public class Sorting {
    static void swap(int[] items, int one, int other) {
        int kept = items[one];
        items[one] = items[other];
        items[other] = kept;
    }

    static void bubble(int[] items) {
        boolean swapped;
        do {
            swapped = false;
            for (int i = 1; i < items.length; i++) {
                if (items[i - 1] <= items[i]) continue;
                swap(items, i - 1, i);
                swapped = true;
            }
        } while (swapped);
    }

    static void quick(int[] items, int from, int to) {
        if (from >= to) return;
        int middle = items[(from + to) / 2];
        int low = from, high = to;
        while (low <= high) {
            while (items[low] < middle) low++;
            while (items[high] > middle) high--;
            if (low <= high) swap(items, low++, high--);
        }
        quick(items, from, high);
        quick(items, low, to);
    }

    static void merge(int[] items, int[] room, int from, int to) {
        if (to - from < 2) return;
        int middle = from + to >>> 1;
        merge(items, room, from, middle);
        merge(items, room, middle, to);
        for (int i = from; i < to; i++) room[i] = items[i];
        int left = from, right = middle;
        for (int i = from; i < to; i++) {
            boolean takesLeft = right == to || left < middle && room[left] <= room[right];
            items[i] = takesLeft ? room[left++] : room[right++];
        }
    }

    static void heap(int[] items) {
        for (int i = items.length / 2 - 1; i >= 0; i--) sink(items, i, items.length);
        for (int end = items.length - 1; end > 0; end--) {
            swap(items, 0, end);
            sink(items, 0, end);
        }
    }

    static void sink(int[] items, int from, int end) {
        for (int child; (child = 2 * from + 1) < end; from = child) {
            if (child + 1 < end && items[child + 1] > items[child]) child++;
            if (items[from] >= items[child]) return;
            swap(items, from, child);
        }
    }

    static int[] mixed(int length) {
        int[] items = new int[length];
        int seed = 42;
        for (int i = 0; i < length; i++) {
            seed ^= seed << 13;
            seed ^= seed >>> 17;
            seed ^= seed << 5;
            items[i] = seed >> 8;
        }
        return items;
    }

    static void show(String name, int[] items) {
        int sum = 0;
        boolean rises = true;
        for (int i = 0; i < items.length; i++) {
            sum = 31 * sum + items[i];
            rises &= i == 0 || items[i - 1] <= items[i];
        }
        System.out.print(name);
        System.out.print(rises ? " rises, first " : " doesn't rise, first ");
        System.out.print(items[0]);
        System.out.print(", sum ");
        System.out.println(sum);
    }

    static void counted() {
        byte[] bytes = {5, -3, 127, -128, 0, 5, 99, -3, 5};
        int[] counts = new int[256];
        for (int i = 0; i < bytes.length; i++) counts[bytes[i] - -128]++;
        int end = 0;
        for (int value = -128; value < 128; value++) {
            for (int left = counts[value + 128]; left > 0; left--) bytes[end++] = (byte) value;
        }
        for (int i = 0; i < bytes.length; i++) {
            System.out.print(bytes[i]);
            System.out.print(i + 1 < bytes.length ? " " : "\n");
        }
    }

    public static void main(String[] words) {
        int[][] items = {mixed(60), mixed(60), mixed(60), mixed(60), mixed(60)};
        bubble(items[0]);
        quick(items[1], 0, 59);
        merge(items[2], new int[60], 0, 60);
        heap(items[3]);
        show("bubble", items[0]);
        show("quick", items[1]);
        show("merge", items[2]);
        show("heap", items[3]);
        show("none", items[4]);
        counted();
    }
}
