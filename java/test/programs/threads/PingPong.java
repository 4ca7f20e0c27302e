/** Two threads take turns by wait and notifyAll. */
public class PingPong {
    private boolean ping = true;

    synchronized void play(boolean mine, String word, StringBuilder out) throws InterruptedException {
        while (ping != mine) {
            wait();
        }
        out.append(word).append(' ');
        ping = !ping;
        notifyAll();
    }

    public static void main(String[] args) throws InterruptedException {
        PingPong table = new PingPong();
        StringBuilder out = new StringBuilder();
        Thread[] players = new Thread[2];
        for (int p = 0; p < 2; p++) {
            boolean mine = p == 0;
            players[p] = new Thread(() -> {
                try {
                    for (int i = 0; i < 4; i++) {
                        table.play(mine, mine ? "ping" : "pong", out);
                    }
                } catch (InterruptedException e) {
                    Thread.currentThread().interrupt();
                }
            });
            players[p].start();
        }
        for (Thread t : players) {
            t.join();
        }
        System.out.println(out.toString().trim());
    }
}
