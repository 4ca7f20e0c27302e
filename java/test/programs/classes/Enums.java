import java.util.*;
import java.util.function.*;

/** Enums with fields, bodies, interfaces and maps. */
public class Enums {
    enum Planet {
        MERCURY(33, 24), EARTH(597, 63), JUPITER(189813, 714);

        private final int mass;
        private final int radius;

        Planet(int mass, int radius) {
            this.mass = mass;
            this.radius = radius;
        }

        int density() {
            return mass * 1000 / (radius * radius);
        }
    }

    enum Op implements IntBinaryOperator {
        PLUS("+") {
            public int applyAsInt(int a, int b) {
                return a + b;
            }
        },
        TIMES("*") {
            public int applyAsInt(int a, int b) {
                return a * b;
            }
        };

        private static final Map<String, Op> BY_SIGN = new HashMap<>();

        static {
            for (Op o : values()) {
                BY_SIGN.put(o.sign, o);
            }
        }

        final String sign;

        Op(String sign) {
            this.sign = sign;
        }

        static Op of(String sign) {
            Op o = BY_SIGN.get(sign);
            if (o == null) {
                throw new IllegalArgumentException("no operator " + sign);
            }
            return o;
        }
    }

    enum Light {
        RED, GREEN, YELLOW;

        Light next() {
            return values()[(ordinal() + 1) % values().length];
        }
    }

    enum Singleton {
        INSTANCE;

        private int count;

        int bump() {
            return ++count;
        }
    }

    public static void main(String[] args) {
        for (Planet p : Planet.values()) {
            System.out.println(p + " " + p.density() + " " + p.name().toLowerCase() + " " + p.ordinal());
        }
        System.out.println(Op.of("+").applyAsInt(3, 4) + " " + Op.of("*").applyAsInt(3, 4) + " " + Op.PLUS + " " + Op.PLUS.getDeclaringClass().getSimpleName() + " " + (Op.PLUS.getClass() == Op.class));
        try {
            Op.of("/");
        } catch (IllegalArgumentException e) {
            System.out.println(e.getMessage());
        }
        Light l = Light.RED;
        StringBuilder s = new StringBuilder();
        for (int i = 0; i < 5; i++) {
            s.append(l).append(' ');
            l = l.next();
        }
        System.out.println(s);
        Singleton.INSTANCE.bump();
        System.out.println(Singleton.INSTANCE.bump() + " " + Singleton.valueOf("INSTANCE").count);
        EnumMap<Light, List<String>> m = new EnumMap<>(Light.class);
        m.computeIfAbsent(Light.YELLOW, k -> new ArrayList<>()).add("wait");
        m.computeIfAbsent(Light.RED, k -> new ArrayList<>()).add("stop");
        System.out.println(m + " " + m.containsKey(Light.GREEN) + " " + m.size());
        EnumSet<Light> set = EnumSet.noneOf(Light.class);
        set.add(Light.GREEN);
        set.addAll(Arrays.asList(Light.RED));
        System.out.println(set + " " + set.contains(Light.YELLOW) + " " + EnumSet.complementOf(set));
        try {
            Light.valueOf("BLUE");
        } catch (IllegalArgumentException e) {
            System.out.println(e.getMessage());
        }
        try {
            Light.valueOf(null);
        } catch (NullPointerException e) {
            System.out.println(e.getMessage());
        }
        Light[] sorted = {Light.YELLOW, Light.RED, Light.GREEN};
        Arrays.sort(sorted);
        System.out.println(Arrays.toString(sorted) + Light.valueOf("RED").equals(Light.RED));
    }
}
