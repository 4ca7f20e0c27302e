import java.util.*;

/** A tokenizer and a compiler to a stack machine with variables and loops. */
public class Tokens {
    enum Op { PUSH, LOAD, STORE, ADD, SUB, MUL, JUMP, JUMPZ, PRINT, HALT }

    static final class Instruction {
        final Op op;
        final int argument;

        Instruction(Op op, int argument) {
            this.op = op;
            this.argument = argument;
        }

        @Override
        public String toString() {
            return op.name().toLowerCase() + (op.ordinal() < 3 || op.name().startsWith("JUMP") ? " " + argument : "");
        }
    }

    static List<Instruction> assemble(String source) {
        Map<String, Integer> labels = new HashMap<>();
        List<String[]> lines = new ArrayList<>();
        for (String line : source.split(";")) {
            String t = line.trim();
            if (t.endsWith(":")) {
                labels.put(t.substring(0, t.length() - 1), lines.size());
            } else if (!t.isEmpty()) {
                lines.add(t.split(" "));
            }
        }
        List<Instruction> code = new ArrayList<>();
        for (String[] l : lines) {
            Op op = Op.valueOf(l[0].toUpperCase());
            int a = l.length < 2 ? 0 : labels.containsKey(l[1]) ? labels.get(l[1]) : Character.isLetter(l[1].charAt(0)) ? l[1].charAt(0) - 'a' : Integer.parseInt(l[1]);
            code.add(new Instruction(op, a));
        }
        return code;
    }

    static void run(List<Instruction> code) {
        int[] memory = new int[26];
        Deque<Integer> stack = new ArrayDeque<>();
        int pc = 0, steps = 0;
        while (true) {
            Instruction i = code.get(pc++);
            steps++;
            switch (i.op) {
                case PUSH:
                    stack.push(i.argument);
                    break;
                case LOAD:
                    stack.push(memory[i.argument]);
                    break;
                case STORE:
                    memory[i.argument] = stack.pop();
                    break;
                case ADD:
                    stack.push(stack.pop() + stack.pop());
                    break;
                case SUB:
                    stack.push(-stack.pop() + stack.pop());
                    break;
                case MUL:
                    stack.push(stack.pop() * stack.pop());
                    break;
                case JUMP:
                    pc = i.argument;
                    break;
                case JUMPZ:
                    if (stack.pop() == 0) {
                        pc = i.argument;
                    }
                    break;
                case PRINT:
                    System.out.println(stack.pop());
                    break;
                case HALT:
                    System.out.println("steps " + steps);
                    return;
                default:
                    throw new AssertionError(i.op);
            }
        }
    }

    public static void main(String[] args) {
        List<Instruction> code = assemble("push 6; store n; push 1; store f; loop:; load n; jumpz done; load f; load n; mul; store f; load n; push 1; sub; store n; jump loop; done:; load f; print; halt");
        System.out.println(code);
        run(code);
        try {
            assemble("fly 1");
        } catch (IllegalArgumentException e) {
            System.out.println(e.getMessage());
        }
        try {
            run(assemble("add; halt"));
        } catch (NoSuchElementException e) {
            System.out.println("stack is empty");
        }
    }
}
