import java.util.*;

/** The shortest way through a maze, and the fill of a picture. */
public class Maze {
    static final String[] MAZE = {
        "#########",
        "#S..#...#",
        "#.#.#.#.#",
        "#.#...#.#",
        "#.#####.#",
        "#......E#",
        "#########",
    };

    static final class Point {
        final int row, col;

        Point(int row, int col) {
            this.row = row;
            this.col = col;
        }

        @Override
        public boolean equals(Object o) {
            return o instanceof Point && ((Point) o).row == row && ((Point) o).col == col;
        }

        @Override
        public int hashCode() {
            return 31 * row + col;
        }

        @Override
        public String toString() {
            return row + "," + col;
        }
    }

    static Point find(char c) {
        for (int r = 0; r < MAZE.length; r++) {
            int at = MAZE[r].indexOf(c);
            if (at >= 0) {
                return new Point(r, at);
            }
        }
        throw new NoSuchElementException("no " + c);
    }

    public static void main(String[] args) {
        Point start = find('S'), end = find('E');
        Map<Point, Point> from = new HashMap<>();
        Deque<Point> queue = new ArrayDeque<>();
        queue.add(start);
        from.put(start, null);
        int[][] steps = {{0, 1}, {1, 0}, {0, -1}, {-1, 0}};
        while (!queue.isEmpty()) {
            Point p = queue.poll();
            if (p.equals(end)) {
                break;
            }
            for (int[] s : steps) {
                Point q = new Point(p.row + s[0], p.col + s[1]);
                if (MAZE[q.row].charAt(q.col) != '#' && !from.containsKey(q)) {
                    from.put(q, p);
                    queue.add(q);
                }
            }
        }
        char[][] drawn = new char[MAZE.length][];
        for (int r = 0; r < MAZE.length; r++) {
            drawn[r] = MAZE[r].toCharArray();
        }
        int length = 0;
        for (Point p = from.get(end); !p.equals(start); p = from.get(p)) {
            drawn[p.row][p.col] = '*';
            length++;
        }
        for (char[] row : drawn) {
            System.out.println(row);
        }
        System.out.println(length + 1 + " steps, " + from.size() + " seen, end " + end);
        try {
            find('Q');
        } catch (NoSuchElementException e) {
            System.out.println(e.getMessage());
        }
    }
}
