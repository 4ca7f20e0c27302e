/** Trees: a search tree, and expressions that are valued and printed by visitors. */
public class Trees {
    static class Tree {
        private final int key;
        private Tree left, right;

        Tree(int key) {
            this.key = key;
        }

        static Tree with(Tree tree, int key) {
            if (tree == null) return new Tree(key);
            if (key < tree.key) tree.left = with(tree.left, key);
            if (key > tree.key) tree.right = with(tree.right, key);
            return tree;
        }

        static int height(Tree tree) {
            if (tree == null) return 0;
            int left = height(tree.left), right = height(tree.right);
            return 1 + (left > right ? left : right);
        }

        static Tree without(Tree tree, int key) {
            if (tree == null) return null;
            if (key < tree.key) tree.left = without(tree.left, key);
            else if (key > tree.key) tree.right = without(tree.right, key);
            else return joined(tree.left, tree.right);
            return tree;
        }

        private static Tree joined(Tree left, Tree right) {
            if (left == null) return right;
            left.right = joined(left.right, right);
            return left;
        }

        static void print(Tree tree) {
            if (tree == null) return;
            print(tree.left);
            System.out.print(tree.key);
            System.out.print(" ");
            print(tree.right);
        }
    }

    interface Visitor {
        int number(int value);

        int sum(Expression left, Expression right);

        int product(Expression left, Expression right);
    }

    interface Expression {
        int accept(Visitor visitor);
    }

    static class Number implements Expression {
        private final int value;

        Number(int value) {
            this.value = value;
        }

        public int accept(Visitor visitor) {
            return visitor.number(value);
        }
    }

    static class Plus implements Expression {
        final Expression left, right;

        Plus(Expression left, Expression right) {
            this.left = left;
            this.right = right;
        }

        public int accept(Visitor visitor) {
            return visitor.sum(left, right);
        }
    }

    static class Times extends Plus {
        Times(Expression left, Expression right) {
            super(left, right);
        }

        public int accept(Visitor visitor) {
            return visitor.product(left, right);
        }
    }

    static class Value implements Visitor {
        public int number(int value) {
            return value;
        }

        public int sum(Expression left, Expression right) {
            return left.accept(this) + right.accept(this);
        }

        public int product(Expression left, Expression right) {
            return left.accept(this) * right.accept(this);
        }
    }

    /** Prints an expression, and gives how many numbers it has. */
    static class Print implements Visitor {
        public int number(int value) {
            System.out.print(value);
            return 1;
        }

        private int both(Expression left, String sign, Expression right) {
            System.out.print("(");
            int count = left.accept(this);
            System.out.print(sign);
            count += right.accept(this);
            System.out.print(")");
            return count;
        }

        public int sum(Expression left, Expression right) {
            return both(left, " + ", right);
        }

        public int product(Expression left, Expression right) {
            return both(left, " * ", right);
        }
    }

    static Expression grown(int depth, int seed) {
        if (depth == 0) return new Number(1 + seed % 9);
        Expression left = grown(depth - 1, seed * 3 + 1), right = grown(depth - 1, seed + 4);
        return seed % 3 == 0 ? new Plus(left, right) : new Times(left, right);
    }

    public static void main(String[] words) {
        Tree tree = null;
        for (int i = 1; i <= 40; i++) tree = Tree.with(tree, i * 17 % 41);
        System.out.println(Tree.height(tree));
        for (int i = 3; i <= 40; i++) tree = i % 5 == 0 ? tree : Tree.without(tree, i);
        Tree.print(tree);
        System.out.println(Tree.height(tree));
        Expression expression = grown(3, 2);
        int count = expression.accept(new Print());
        System.out.print(" of ");
        System.out.print(count);
        System.out.print(" numbers is ");
        System.out.println(expression.accept(new Value()));
        System.out.println(grown(7, 5).accept(new Value()));
    }
}
