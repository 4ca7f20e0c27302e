package jx;

/** What arrays need: copies, clones, the search of an enum's constant. */
public final class Arr {
    private Arr() {
    }

    /** Returns the length of an array of any type. */
    public static int length(Object a) {
        if (a instanceof Object[]) {
            return ((Object[]) a).length;
        }
        if (a instanceof int[]) {
            return ((int[]) a).length;
        }
        if (a instanceof char[]) {
            return ((char[]) a).length;
        }
        if (a instanceof byte[]) {
            return ((byte[]) a).length;
        }
        if (a instanceof boolean[]) {
            return ((boolean[]) a).length;
        }
        if (a instanceof long[]) {
            return ((long[]) a).length;
        }
        if (a instanceof short[]) {
            return ((short[]) a).length;
        }
        throw new IllegalArgumentException("Argument is not an array");
    }

    /** Copies all elements into the new array, and returns that. */
    public static Object fill(Object from, Object to) {
        copy(from, 0, to, 0, length(from));
        return to;
    }

    /** Is Enum.valueOf. */
    public static Enum find(Class c, String name, Enum[] all) {
        if (name == null) {
            throw new NullPointerException("Name is null");
        }
        for (int i = 0; i < all.length; i++) {
            if (all[i].name().equals(name)) {
                return all[i];
            }
        }
        throw new IllegalArgumentException("No enum constant " + Classes.getCanonicalName(c) + "." + name);
    }

    /** Is Enum.valueOf, where the class isn't known. */
    public static Enum find(String name, Enum[] all) {
        return find(all.length == 0 ? Enum.class : all[0].getDeclaringClass(), name, all);
    }

    /** Is System.arraycopy. */
    public static void copy(Object from, int at, Object to, int into, int count) {
        if (from == null || to == null) {
            throw new NullPointerException();
        }
        if (from instanceof char[] && to instanceof char[]) {
            chars((char[]) from, at, (char[]) to, into, count);
        } else if (from instanceof Object[] && to instanceof Object[]) {
            references((Object[]) from, at, (Object[]) to, into, count);
        } else if (from instanceof int[] && to instanceof int[]) {
            ints((int[]) from, at, (int[]) to, into, count);
        } else if (from instanceof byte[] && to instanceof byte[]) {
            bytes((byte[]) from, at, (byte[]) to, into, count);
        } else if (from instanceof long[] && to instanceof long[]) {
            longs((long[]) from, at, (long[]) to, into, count);
        } else if (from instanceof boolean[] && to instanceof boolean[]) {
            booleans((boolean[]) from, at, (boolean[]) to, into, count);
        } else if (from instanceof short[] && to instanceof short[]) {
            shorts((short[]) from, at, (short[]) to, into, count);
        } else {
            throw CopyFailures.types(from, to);
        }
    }

    private static void check(int at, int into, int count, Object from, int length, int capacity) {
        if (at < 0 || into < 0 || count < 0 || at > length - count || into > capacity - count) {
            throw CopyFailures.bounds(from, at, into, count, length, capacity);
        }
    }

    private static void references(Object[] from, int at, Object[] to, int into, int count) {
        check(at, into, count, from, from.length, to.length);
        int i = 0;
        try {
            if (from == to && at < into) {
                for (i = count - 1; i >= 0; i--) {
                    to[into + i] = from[at + i];
                }
            } else {
                for (; i < count; i++) {
                    to[into + i] = from[at + i];
                }
            }
        } catch (ArrayStoreException e) {
            throw CopyFailures.element(from, to);
        }
    }

    private static void ints(int[] from, int at, int[] to, int into, int count) {
        check(at, into, count, from, from.length, to.length);
        if (from == to && at < into) {
            for (int i = count - 1; i >= 0; i--) {
                to[into + i] = from[at + i];
            }
        } else {
            for (int i = 0; i < count; i++) {
                to[into + i] = from[at + i];
            }
        }
    }

    private static void chars(char[] from, int at, char[] to, int into, int count) {
        check(at, into, count, from, from.length, to.length);
        if (from == to && at < into) {
            for (int i = count - 1; i >= 0; i--) {
                to[into + i] = from[at + i];
            }
        } else {
            for (int i = 0; i < count; i++) {
                to[into + i] = from[at + i];
            }
        }
    }

    private static void bytes(byte[] from, int at, byte[] to, int into, int count) {
        check(at, into, count, from, from.length, to.length);
        if (from == to && at < into) {
            for (int i = count - 1; i >= 0; i--) {
                to[into + i] = from[at + i];
            }
        } else {
            for (int i = 0; i < count; i++) {
                to[into + i] = from[at + i];
            }
        }
    }

    private static void longs(long[] from, int at, long[] to, int into, int count) {
        check(at, into, count, from, from.length, to.length);
        if (from == to && at < into) {
            for (int i = count - 1; i >= 0; i--) {
                to[into + i] = from[at + i];
            }
        } else {
            for (int i = 0; i < count; i++) {
                to[into + i] = from[at + i];
            }
        }
    }

    private static void booleans(boolean[] from, int at, boolean[] to, int into, int count) {
        check(at, into, count, from, from.length, to.length);
        if (from == to && at < into) {
            for (int i = count - 1; i >= 0; i--) {
                to[into + i] = from[at + i];
            }
        } else {
            for (int i = 0; i < count; i++) {
                to[into + i] = from[at + i];
            }
        }
    }

    private static void shorts(short[] from, int at, short[] to, int into, int count) {
        check(at, into, count, from, from.length, to.length);
        if (from == to && at < into) {
            for (int i = count - 1; i >= 0; i--) {
                to[into + i] = from[at + i];
            }
        } else {
            for (int i = 0; i < count; i++) {
                to[into + i] = from[at + i];
            }
        }
    }
}
