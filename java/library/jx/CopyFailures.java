package jx;

/** What System.arraycopy throws; apart from the copies, so that its texts aren't made for them. */
final class CopyFailures {
    private CopyFailures() {
    }

    /** Returns the exception of arrays that can't be copied into each other. */
    static ArrayStoreException types(Object from, Object to) {
        if (!Classes.isArray(Obj.getClass(from))) {
            return new ArrayStoreException("arraycopy: source type " + name(from) + " is not an array");
        }
        if (!Classes.isArray(Obj.getClass(to))) {
            return new ArrayStoreException("arraycopy: destination type " + name(to) + " is not an array");
        }
        return new ArrayStoreException("arraycopy: type mismatch: can not copy " + kind(from) + "] into " + kind(to) + "]");
    }

    /** Returns the exception of an element that the array can't hold. */
    static ArrayStoreException element(Object from, Object to) {
        return new ArrayStoreException("arraycopy: element type mismatch: can not cast one of the elements of " + name(from)
            + " to the type of the destination array, " + Classes.getName(Classes.getComponentType(Obj.getClass(to))));
    }

    private static String name(Object o) {
        return Classes.getName(Obj.getClass(o));
    }

    private static String kind(Object array) {
        String name = array instanceof Object[] ? "object array[]" : Classes.getSimpleName(Obj.getClass(array));
        return name.substring(0, name.length() - 1);
    }

    /** Returns the exception of a range that isn't in an array. */
    static ArrayIndexOutOfBoundsException bounds(Object from, int at, int into, int count, int length, int capacity) {
        String of = kind(from);
        String message;
        if (at < 0) {
            message = "source index " + at + " out of bounds for " + of + length + "]";
        } else if (into < 0) {
            message = "destination index " + into + " out of bounds for " + of + capacity + "]";
        } else if (count < 0) {
            message = "length " + count + " is negative";
        } else if (at > length - count) {
            message = "last source index " + ((long) at + count) + " out of bounds for " + of + length + "]";
        } else {
            message = "last destination index " + ((long) into + count) + " out of bounds for " + of + capacity + "]";
        }
        return new ArrayIndexOutOfBoundsException("arraycopy: " + message);
    }
}
