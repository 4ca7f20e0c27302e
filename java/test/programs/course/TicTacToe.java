/** Tic-tac-toe by minimax: the machine plays itself. */
public class TicTacToe {
    private final char[] cells = "         ".toCharArray();
    private int looked;

    private static final int[][] LINES = {{0, 1, 2}, {3, 4, 5}, {6, 7, 8}, {0, 3, 6}, {1, 4, 7}, {2, 5, 8}, {0, 4, 8}, {2, 4, 6}};

    char winner() {
        for (int[] l : LINES) {
            if (cells[l[0]] != ' ' && cells[l[0]] == cells[l[1]] && cells[l[1]] == cells[l[2]]) {
                return cells[l[0]];
            }
        }
        return new String(cells).indexOf(' ') < 0 ? '=' : ' ';
    }

    int score(char player, char other) {
        looked++;
        char w = winner();
        if (w != ' ') {
            return w == player ? 1 : w == '=' ? 0 : -1;
        }
        int best = -2;
        for (int i = 0; i < 9 && best < 1; i++) {
            if (cells[i] == ' ') {
                cells[i] = player;
                best = Math.max(best, -score(other, player));
                cells[i] = ' ';
            }
        }
        return best;
    }

    int bestMove(char player, char other) {
        int best = -2, move = -1;
        for (int i = 0; i < 9; i++) {
            if (cells[i] == ' ') {
                cells[i] = player;
                int s = -score(other, player);
                cells[i] = ' ';
                if (s > best) {
                    best = s;
                    move = i;
                }
            }
        }
        return move;
    }

    public static void main(String[] args) {
        TicTacToe game = new TicTacToe();
        game.cells[4] = 'X';
        game.cells[0] = 'O';
        game.cells[8] = 'X';
        game.cells[2] = 'O';
        char player = 'X', other = 'O';
        while (game.winner() == ' ') {
            game.cells[game.bestMove(player, other)] = player;
            char t = player;
            player = other;
            other = t;
        }
        for (int r = 0; r < 3; r++) {
            System.out.println(new String(game.cells, 3 * r, 3).replace(' ', '.'));
        }
        System.out.println("result " + game.winner() + " looked " + game.looked);
    }
}
