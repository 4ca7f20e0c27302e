/** Readers and writers by a monitor, writers first. */
public class ReadersWriters {
    private int readers, waitingWriters;
    private boolean writing;
    private int value, most, now;

    synchronized void startRead() throws InterruptedException {
        while (writing || waitingWriters > 0) {
            wait();
        }
        readers++;
        most = Math.max(most, readers);
    }

    synchronized void endRead() {
        if (--readers == 0) {
            notifyAll();
        }
    }

    synchronized void startWrite() throws InterruptedException {
        waitingWriters++;
        try {
            while (writing || readers > 0) {
                wait();
            }
        } finally {
            waitingWriters--;
        }
        writing = true;
    }

    synchronized void endWrite() {
        writing = false;
        notifyAll();
    }

    public static void main(String[] args) throws Exception {
        ReadersWriters rw = new ReadersWriters();
        boolean[] torn = new boolean[1];
        Thread[] all = new Thread[5];
        for (int i = 0; i < all.length; i++) {
            boolean writer = i % 2 == 0;
            all[i] = new Thread(() -> {
                try {
                    for (int k = 0; k < 4; k++) {
                        if (writer) {
                            rw.startWrite();
                            rw.value++;
                            rw.now++;
                            rw.endWrite();
                        } else {
                            rw.startRead();
                            if (rw.value != rw.now) {
                                torn[0] = true;
                            }
                            rw.endRead();
                        }
                    }
                } catch (InterruptedException e) {
                    Thread.currentThread().interrupt();
                }
            });
            all[i].start();
        }
        for (Thread t : all) {
            t.join();
        }
        System.out.println(rw.value + " " + torn[0] + " " + (rw.most <= 2));
    }
}
