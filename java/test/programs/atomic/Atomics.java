import java.util.concurrent.atomic.*;

/** The atomic classes, by one thread and by several. */
public class Atomics {
    volatile int field;
    volatile long wide;
    volatile String text = "t";
    static final AtomicIntegerFieldUpdater<Atomics> FIELD = AtomicIntegerFieldUpdater.newUpdater(Atomics.class, "field");
    static final AtomicLongFieldUpdater<Atomics> WIDE = AtomicLongFieldUpdater.newUpdater(Atomics.class, "wide");
    static final AtomicReferenceFieldUpdater<Atomics, String> TEXT = AtomicReferenceFieldUpdater.newUpdater(Atomics.class, String.class, "text");

    public static void main(String[] args) throws Exception {
        AtomicInteger i = new AtomicInteger(5);
        System.out.println(i.getAndIncrement() + " " + i.incrementAndGet() + " " + i.addAndGet(3) + " " + i.getAndSet(1) + " " + i.compareAndSet(1, 9) + " " + i.compareAndSet(1, 8) + " " + i);
        System.out.println(i.updateAndGet(x -> x * 2) + " " + i.getAndUpdate(x -> x + 1) + " " + i.accumulateAndGet(4, Math::max) + " " + i.getAndAccumulate(2, (a, b) -> a - b) + " " + i.intValue());
        AtomicLong l = new AtomicLong();
        System.out.println(l.incrementAndGet() + " " + l.getAndAdd(1L << 40) + " " + l.decrementAndGet() + " " + l);
        AtomicBoolean b = new AtomicBoolean();
        System.out.println(b.compareAndSet(false, true) + " " + b.getAndSet(false) + " " + b);
        AtomicReference<String> r = new AtomicReference<>("a");
        System.out.println(r.updateAndGet(s -> s + "b") + " " + r.compareAndSet("zz", "c") + " " + r.getAndSet("d") + " " + r);
        AtomicIntegerArray arr = new AtomicIntegerArray(3);
        arr.incrementAndGet(1);
        arr.addAndGet(2, 5);
        System.out.println(arr + " " + arr.length() + " " + arr.getAndUpdate(2, x -> x * x) + " " + arr.get(2));
        AtomicLongArray la = new AtomicLongArray(new long[] {1, 2});
        AtomicReferenceArray<String> ra = new AtomicReferenceArray<>(2);
        ra.set(0, "x");
        System.out.println(la.accumulateAndGet(1, 10, (x, y) -> x * y) + " " + la + " " + ra + " " + ra.compareAndSet(1, null, "y") + ra.get(1));
        try {
            arr.get(3);
        } catch (IndexOutOfBoundsException e) {
            System.out.println(e.getMessage());
        }
        AtomicStampedReference<String> st = new AtomicStampedReference<>("s", 1);
        int[] stamp = new int[1];
        System.out.println(st.get(stamp) + stamp[0] + st.compareAndSet("s", "t", 1, 2) + st.getStamp() + st.getReference());
        AtomicMarkableReference<String> mk = new AtomicMarkableReference<>("m", false);
        System.out.println(mk.attemptMark("m", true) + " " + mk.isMarked() + " " + mk.getReference());
        LongAdder adder = new LongAdder();
        LongAccumulator max = new LongAccumulator(Long::max, Long.MIN_VALUE);
        AtomicInteger shared = new AtomicInteger();
        Atomics object = new Atomics();
        Thread[] threads = new Thread[4];
        for (int n = 0; n < 4; n++) {
            int id = n;
            threads[n] = new Thread(() -> {
                for (int k = 0; k < 5; k++) {
                    shared.incrementAndGet();
                    adder.add(2);
                    max.accumulate(id * 10 + k);
                    FIELD.incrementAndGet(object);
                    WIDE.addAndGet(object, 1L << 33);
                }
            });
            threads[n].start();
        }
        for (Thread t : threads) {
            t.join();
        }
        System.out.println(shared + " " + adder + " " + max + " " + adder.sumThenReset() + " " + adder.sum() + " " + max.get() + " " + object.field + " " + object.wide);
        object.text = "u";
        System.out.println(TEXT.compareAndSet(object, "u", "v") + " " + object.text + " " + TEXT.getAndSet(object, "w") + TEXT.get(object));
    }
}
