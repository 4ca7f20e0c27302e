import java.util.*;

/** A recursive descent parser and a stack machine. */
public class Calculator {
    private final String text;
    private int at;

    Calculator(String text) {
        this.text = text.replace(" ", "");
    }

    static class SyntaxException extends RuntimeException {
        SyntaxException(String message) {
            super(message);
        }
    }

    long parse() {
        long v = sum();
        if (at < text.length()) {
            throw new SyntaxException("unexpected '" + text.charAt(at) + "' at " + at);
        }
        return v;
    }

    private boolean eat(char c) {
        if (at < text.length() && text.charAt(at) == c) {
            at++;
            return true;
        }
        return false;
    }

    private long sum() {
        long v = product();
        while (true) {
            if (eat('+')) {
                v += product();
            } else if (eat('-')) {
                v -= product();
            } else {
                return v;
            }
        }
    }

    private long product() {
        long v = factor();
        while (true) {
            if (eat('*')) {
                v *= factor();
            } else if (eat('/')) {
                v /= factor();
            } else {
                return v;
            }
        }
    }

    private long factor() {
        if (eat('-')) {
            return -factor();
        }
        if (eat('(')) {
            long v = sum();
            if (!eat(')')) {
                throw new SyntaxException("missing )");
            }
            return v;
        }
        int start = at;
        while (at < text.length() && Character.isDigit(text.charAt(at))) {
            at++;
        }
        if (start == at) {
            throw new SyntaxException("number expected at " + at);
        }
        return Long.parseLong(text.substring(start, at));
    }

    static int rpn(String program) {
        Deque<Integer> stack = new ArrayDeque<>();
        for (String w : program.split(" ")) {
            switch (w) {
                case "+":
                    stack.push(stack.pop() + stack.pop());
                    break;
                case "*":
                    stack.push(stack.pop() * stack.pop());
                    break;
                case "-": {
                    int b = stack.pop();
                    stack.push(stack.pop() - b);
                    break;
                }
                default:
                    stack.push(Integer.parseInt(w));
            }
        }
        return stack.pop();
    }

    static boolean balanced(String s) {
        Deque<Character> open = new ArrayDeque<>();
        for (char c : s.toCharArray()) {
            int i = "([{".indexOf(c);
            if (i >= 0) {
                open.push(")]}".charAt(i));
            } else if (")]}".indexOf(c) >= 0 && (open.isEmpty() || open.pop() != c)) {
                return false;
            }
        }
        return open.isEmpty();
    }

    public static void main(String[] args) {
        for (String s : new String[] {"1 + 2 * 3", "(1+2)*3", "-(4-10)*2/3", "2*(3", "7/0", "1+x", "5 5"}) {
            try {
                System.out.println(s + " = " + new Calculator(s).parse());
            } catch (SyntaxException | ArithmeticException e) {
                System.out.println(s + ": " + e.getClass().getSimpleName() + " " + e.getMessage());
            }
        }
        System.out.println(rpn("3 4 + 2 * 7 -") + " " + balanced("{[()]}()") + " " + balanced("([)]") + " " + balanced("(("));
    }
}
