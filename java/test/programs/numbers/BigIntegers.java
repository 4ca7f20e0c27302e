import java.math.BigInteger;

/** BigInteger: factorials, powers, bits, primes. */
public class BigIntegers {
    public static void main(String[] args) {
        BigInteger f = BigInteger.ONE;
        for (int i = 2; i <= 30; i++) {
            f = f.multiply(BigInteger.valueOf(i));
        }
        System.out.println(f + " " + f.bitLength() + " " + f.toString(16) + " " + f.hashCode());
        BigInteger a = new BigInteger("123456789012345678901234567890"), b = new BigInteger("-987654321098765432109876543210");
        System.out.println(a.add(b) + " " + a.subtract(b) + " " + a.multiply(b) + " " + b.divide(a) + " " + b.mod(a) + " " + b.remainder(a));
        System.out.println(a.compareTo(b) + " " + a.negate() + " " + b.abs() + " " + a.signum() + " " + a.gcd(b) + " " + a.max(b).equals(a));
        System.out.println(BigInteger.valueOf(2).pow(100) + " " + BigInteger.valueOf(3).modPow(new BigInteger("1000"), BigInteger.valueOf(1000007)) + " " + BigInteger.valueOf(3).modInverse(BigInteger.valueOf(11)));
        System.out.println(BigInteger.ONE.shiftLeft(70).shiftRight(3) + " " + a.and(BigInteger.valueOf(255)) + " " + a.or(BigInteger.TEN) + " " + a.xor(a) + " " + a.testBit(3) + " " + a.bitCount() + " " + a.not());
        System.out.println(new BigInteger("ff", 16) + " " + a.longValue() + " " + a.intValue() + " " + BigInteger.valueOf(97).isProbablePrime(10));
        try {
            a.divide(BigInteger.ZERO);
        } catch (ArithmeticException e) {
            System.out.println(e.getMessage());
        }
        try {
            new BigInteger("12x");
        } catch (NumberFormatException e) {
            System.out.println(e.getMessage());
        }
        BigInteger[] fib = {BigInteger.ZERO, BigInteger.ONE};
        for (int i = 0; i < 150; i++) {
            BigInteger t = fib[0].add(fib[1]);
            fib[0] = fib[1];
            fib[1] = t;
        }
        System.out.println(fib[0]);
        System.out.println(BigInteger.valueOf(7).pow(300));
    }
}
