import java.util.*;

/** An event queue: customers at a counter. */
public class Simulation {
    abstract static class Event implements Comparable<Event> {
        final int time;
        private static int count;
        private final int number = count++;

        Event(int time) {
            this.time = time;
        }

        abstract void happen(Simulation s);

        @Override
        public int compareTo(Event o) {
            return time != o.time ? time - o.time : number - o.number;
        }
    }

    static class Arrival extends Event {
        final String who;

        Arrival(int time, String who) {
            super(time);
            this.who = who;
        }

        void happen(Simulation s) {
            s.say(time, who + " arrives");
            s.line.add(who);
            s.serve(time);
        }
    }

    static class Leaving extends Event {
        final String who;

        Leaving(int time, String who) {
            super(time);
            this.who = who;
        }

        void happen(Simulation s) {
            s.say(time, who + " leaves");
            s.busy = false;
            s.serve(time);
        }
    }

    private final PriorityQueue<Event> events = new PriorityQueue<>();
    private final Queue<String> line = new ArrayDeque<>();
    private final Random random = new Random(99);
    private boolean busy;

    void say(int time, String s) {
        System.out.printf("%3d %s%n", time, s);
    }

    void serve(int now) {
        if (!busy && !line.isEmpty()) {
            busy = true;
            events.add(new Leaving(now + 3 + random.nextInt(4), line.remove()));
        }
    }

    public static void main(String[] args) {
        Simulation s = new Simulation();
        int t = 0;
        for (String who : "Ann Bob Cy Dee Eve".split(" ")) {
            t += s.random.nextInt(5);
            s.events.add(new Arrival(t, who));
        }
        while (!s.events.isEmpty()) {
            s.events.poll().happen(s);
        }
        System.out.println("line " + s.line + " busy " + s.busy);
    }
}
