import java.util.*;

/** A state machine: a lift that serves calls in order of its way. */
public class Elevator {
    enum Direction { UP, DOWN, IDLE }

    private int floor;
    private Direction direction = Direction.IDLE;
    private final TreeSet<Integer> stops = new TreeSet<>();
    private final List<String> log = new ArrayList<>();

    void call(int f) {
        if (f < 0 || f > 9) {
            throw new IllegalArgumentException("floor " + f + " is not in 0..9");
        }
        stops.add(f);
    }

    void step() {
        if (stops.isEmpty()) {
            direction = Direction.IDLE;
            return;
        }
        if (stops.remove(floor)) {
            log.add("open " + floor);
            return;
        }
        Integer above = stops.higher(floor), below = stops.lower(floor);
        switch (direction) {
            case UP:
                direction = above != null ? Direction.UP : Direction.DOWN;
                break;
            case DOWN:
                direction = below != null ? Direction.DOWN : Direction.UP;
                break;
            default:
                direction = above != null && (below == null || above - floor <= floor - below) ? Direction.UP : Direction.DOWN;
        }
        floor += direction == Direction.UP ? 1 : -1;
    }

    public static void main(String[] args) {
        Elevator e = new Elevator();
        e.call(3);
        e.call(7);
        int steps = 0;
        while (steps == 0 || e.direction != Direction.IDLE) {
            e.step();
            if (++steps == 3) {
                e.call(1);
                e.call(5);
            }
        }
        System.out.println(e.log + " after " + steps + " steps at " + e.floor);
        try {
            e.call(12);
        } catch (IllegalArgumentException x) {
            System.out.println(x.getMessage());
        }
    }
}
