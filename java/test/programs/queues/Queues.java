import java.util.*;
import java.util.concurrent.*;

/** Each queue of java.util.concurrent. */
public class Queues {
    static class Delay implements Delayed {
        final String name;
        final long due;

        Delay(String name, long ms) {
            this.name = name;
            this.due = System.nanoTime() + ms * 1_000_000;
        }

        public long getDelay(TimeUnit unit) {
            return unit.convert(due - System.nanoTime(), TimeUnit.NANOSECONDS);
        }

        public int compareTo(Delayed o) {
            return Long.compare(due, ((Delay) o).due);
        }
    }

    static String drain(BlockingQueue<Integer> q) throws InterruptedException {
        List<Integer> out = new ArrayList<>();
        Thread t = new Thread(() -> {
            try {
                for (int i = 0; i < 6; i++) {
                    q.put(i);
                }
            } catch (InterruptedException e) {
                out.add(-1);
            }
        });
        t.start();
        for (int i = 0; i < 6; i++) {
            out.add(q.take());
        }
        t.join();
        return out + " " + q.size();
    }

    public static void main(String[] args) throws Exception {
        System.out.println(drain(new ArrayBlockingQueue<>(2)));
        System.out.println(drain(new LinkedBlockingQueue<>(3)));
        System.out.println(drain(new LinkedBlockingDeque<>(1)));
        System.out.println(drain(new SynchronousQueue<>()));
        System.out.println(drain(new LinkedTransferQueue<>()));
        System.out.println(drain(new PriorityBlockingQueue<>()).length());
        BlockingQueue<String> q = new ArrayBlockingQueue<>(2);
        System.out.println(q.offer("a") + " " + q.offer("b") + " " + q.offer("c") + " " + q.offer("d", 10, TimeUnit.MILLISECONDS) + " " + q.remainingCapacity() + " " + q.peek() + q.poll() + q.poll() + q.poll() + q.poll(10, TimeUnit.MILLISECONDS));
        try {
            q.add("1");
            q.add("2");
            q.add("3");
        } catch (IllegalStateException e) {
            System.out.println(e.getMessage());
        }
        PriorityBlockingQueue<String> p = new PriorityBlockingQueue<>(4, Comparator.comparing(String::length));
        Collections.addAll(p, "ccc", "a", "bb", "dddd");
        System.out.println(p.take() + p.take() + p.take() + p.take());
        DelayQueue<Delay> delays = new DelayQueue<>();
        delays.add(new Delay("late", 200));
        delays.add(new Delay("soon", 100));
        System.out.println(delays.poll() + " " + delays.take().name + " " + delays.take().name);
        ConcurrentLinkedQueue<Integer> c = new ConcurrentLinkedQueue<>(Arrays.asList(1, 2, 3));
        c.add(4);
        System.out.println(c.poll() + " " + c + " " + c.size() + " " + c.contains(3) + c.remove(3) + c.peek());
        ConcurrentLinkedDeque<Integer> d = new ConcurrentLinkedDeque<>();
        d.addFirst(1);
        d.addLast(2);
        d.push(0);
        System.out.println(d + " " + d.pollLast() + d.pop() + d);
        Deque<Integer> deque = new ArrayDeque<>();
        deque.offerFirst(1);
        deque.offerLast(2);
        deque.push(0);
        System.out.println(deque + " " + deque.peekLast() + deque.pop() + deque.size());
        PriorityQueue<int[]> heap = new PriorityQueue<>((x, y) -> x[1] - y[1]);
        heap.add(new int[] {1, 9});
        heap.add(new int[] {2, 3});
        heap.add(new int[] {3, 5});
        StringBuilder s = new StringBuilder();
        while (!heap.isEmpty()) {
            s.append(heap.remove()[0]);
        }
        System.out.println(s);
        TransferQueue<String> tq = new LinkedTransferQueue<>();
        Thread taker = new Thread(() -> {
            try {
                System.out.println("took " + tq.take());
            } catch (InterruptedException e) {
                System.out.println("no");
            }
        });
        taker.start();
        tq.transfer("handed");
        taker.join();
        System.out.println(tq.tryTransfer("x") + " " + tq.size());
    }
}
