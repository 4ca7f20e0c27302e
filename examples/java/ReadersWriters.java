// Needs: exceptions, monitors, threads

/** A lock that several readers or one writer hold. The writers change two numbers, and the readers find them equal. */
public class ReadersWriters {
    private int readers;
    private boolean isWritten;
    private int one;
    private int other;

    synchronized void beginRead() throws InterruptedException {
        while (isWritten) wait();
        readers++;
    }

    synchronized void endRead() {
        readers--;
        if (readers == 0) notifyAll();
    }

    synchronized void beginWrite() throws InterruptedException {
        while (isWritten || readers > 0) wait();
        isWritten = true;
    }

    synchronized void endWrite() {
        isWritten = false;
        notifyAll();
    }

    /** Adds to both numbers, between beginWrite and endWrite. */
    void add(int n) {
        one += n;
        other += n;
    }

    /** Returns how far the numbers differ, between beginRead and endRead. */
    int difference() {
        return one - other;
    }

    static class Writer extends Thread {
        private final ReadersWriters lock;

        Writer(ReadersWriters lock) {
            this.lock = lock;
        }

        public void run() {
            try {
                for (int i = 1; i <= 5; i++) {
                    lock.beginWrite();
                    lock.add(i);
                    lock.endWrite();
                }
            } catch (InterruptedException e) {
                System.out.println("not reached");
            }
        }
    }

    static class Reader extends Thread {
        private final ReadersWriters lock;
        int differences;

        Reader(ReadersWriters lock) {
            this.lock = lock;
        }

        public void run() {
            try {
                for (int i = 0; i < 5; i++) {
                    lock.beginRead();
                    if (lock.difference() != 0) differences++;
                    lock.endRead();
                }
            } catch (InterruptedException e) {
                System.out.println("not reached");
            }
        }
    }

    public static void main(String[] words) throws InterruptedException {
        ReadersWriters lock = new ReadersWriters();
        Reader[] readers = {new Reader(lock), new Reader(lock), new Reader(lock)};
        Writer[] writers = {new Writer(lock), new Writer(lock)};
        for (int i = 0; i < readers.length; i++) readers[i].start();
        for (int i = 0; i < writers.length; i++) writers[i].start();
        int differences = 0;
        for (int i = 0; i < readers.length; i++) {
            readers[i].join();
            differences += readers[i].differences;
        }
        for (int i = 0; i < writers.length; i++) writers[i].join();
        System.out.println(differences);
        System.out.println(lock.one);
        System.out.println(lock.other);
    }
}
