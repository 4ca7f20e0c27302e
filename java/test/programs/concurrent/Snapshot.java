import java.util.*;
import java.util.concurrent.*;
import java.util.concurrent.atomic.*;

/** A stack without locks, a snapshot by compare and set, a spin lock. */
public class Snapshot {
    static class Stack<T> {
        private static class Node<T> {
            final T value;
            Node<T> next;

            Node(T value) {
                this.value = value;
            }
        }

        private final AtomicReference<Node<T>> top = new AtomicReference<>();

        void push(T t) {
            Node<T> n = new Node<>(t);
            do {
                n.next = top.get();
            } while (!top.compareAndSet(n.next, n));
        }

        T pop() {
            Node<T> n;
            do {
                n = top.get();
                if (n == null) {
                    return null;
                }
            } while (!top.compareAndSet(n, n.next));
            return n.value;
        }
    }

    static class SpinLock {
        private final AtomicBoolean held = new AtomicBoolean();

        void lock() {
            while (!held.compareAndSet(false, true)) {
                Thread.yield();
            }
        }

        void unlock() {
            held.set(false);
        }
    }

    static int plain;

    public static void main(String[] args) throws Exception {
        Stack<Integer> stack = new Stack<>();
        SpinLock spin = new SpinLock();
        AtomicReference<List<Integer>> list = new AtomicReference<>(Collections.emptyList());
        Set<Integer> popped = ConcurrentHashMap.newKeySet();
        Thread[] t = new Thread[3];
        for (int i = 0; i < 3; i++) {
            int id = i;
            t[i] = new Thread(() -> {
                for (int k = 0; k < 4; k++) {
                    stack.push(id * 10 + k);
                    int x = id * 10 + k;
                    list.updateAndGet(l -> {
                        List<Integer> copy = new ArrayList<>(l);
                        copy.add(x);
                        return copy;
                    });
                    spin.lock();
                    plain++;
                    spin.unlock();
                }
                for (int k = 0; k < 3; k++) {
                    popped.add(stack.pop());
                }
            });
            t[i].start();
        }
        for (Thread x : t) {
            x.join();
        }
        int left = 0;
        while (stack.pop() != null) {
            left++;
        }
        System.out.println(popped.size() + " " + left + " " + plain + " " + new TreeSet<>(list.get()));
    }
}
