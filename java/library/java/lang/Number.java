package java.lang;

/** The boxes of numbers. */
public abstract class Number implements java.io.Serializable {
    public abstract int intValue();

    public abstract long longValue();

    public float floatValue() {
        throw new UnsupportedOperationException("float");
    }

    public double doubleValue() {
        throw new UnsupportedOperationException("double");
    }

    public byte byteValue() {
        return (byte) intValue();
    }

    public short shortValue() {
        return (short) intValue();
    }
}
