import java.math.*;
import java.util.*;

/** String.format, text methods, numbers as text, BigInteger and BigDecimal. */
public class Formats {
    public static void main(String[] args) {
        System.out.println(String.format("%d %5d|%-5d|%05d %x %X %o %,d", 42, 42, 42, 42, 255, 255, 8, 1234567));
        System.out.println(String.format("%s %10s|%-10s| %c %b %%  %n", "a", "b", "c", 'd', true).trim());
        System.out.println(String.format("%.3f %10.2f %e %g %.0f", Math.PI, Math.E, 12345.678, 0.00012345, 2.5));
        System.out.printf("%s %S %h %08.3f %+d%n", List.of(1, 2), "up", "hi", 3.14159, 7);
        BigInteger f = BigInteger.ONE;
        for (int i = 2; i <= 300; i++) f = f.multiply(BigInteger.valueOf(i));
        System.out.println(f);
        System.out.println(f.mod(BigInteger.valueOf(1000000007)) + " " + f.bitLength() + " " + f.toString(16).substring(0, 40));
        System.out.println(new BigInteger("123456789012345678901234567890").pow(5).sqrt().gcd(BigInteger.valueOf(90)));
        System.out.println(BigInteger.valueOf(3).modPow(new BigInteger("1000000000000"), BigInteger.valueOf(998244353)));
        System.out.println(new BigDecimal("1").divide(new BigDecimal("7"), 50, RoundingMode.HALF_UP));
        System.out.println(new BigDecimal("123.456").setScale(1, RoundingMode.DOWN).add(new BigDecimal("1e3")));
        System.out.println("a,b,,c".split(",").length + " " + "Hello".replace('l', 'L') + " " + "x1y22z".replaceAll("[0-9]+", "#")
            + " " + "abc".matches("a.c"));
        System.out.println(String.join("-", "a", "b") + " " + "  pad ".strip() + "|" + "ab".compareTo("ac")
            + " " + "MiXed".toUpperCase() + " " + "äöü€😀".length() + " äöü€😀");
        System.out.println(Integer.toBinaryString(42) + " " + Integer.toHexString(-1) + " " + Long.parseLong("-99")
            + " " + Integer.parseInt("7f", 16) + " " + Integer.bitCount(255) + " " + Long.numberOfTrailingZeros(64));
        System.out.println(Double.toString(1e21) + " " + 123456789.0 + " " + 1.0e-5 + " " + Float.toString(3.4e10f)
            + " " + Double.parseDouble("2.5e3") + " " + Math.round(2.5) + " " + Math.floorMod(-7, 3));
        System.out.println(Math.sin(1) + " " + Math.pow(2, 0.5) + " " + Math.exp(1) + " " + Math.log(10)
            + " " + Math.cbrt(27) + " " + Math.hypot(3, 4) + " " + Math.atan2(1, 2));
        StringBuilder b = new StringBuilder("0123456789");
        b.reverse().insert(3, "ins").deleteCharAt(0).setCharAt(1, 'X');
        System.out.println(b + " " + b.indexOf("ins") + " " + b.length());
        try { Integer.parseInt("abc"); } catch (NumberFormatException e) { System.out.println(e.getMessage()); }
        try { "abc".substring(5); } catch (StringIndexOutOfBoundsException e) { System.out.println(e.getMessage()); }
        try { List.of(1).get(3); } catch (IndexOutOfBoundsException e) { System.out.println(e.getMessage()); }
        try { new ArrayList<>(List.of(1)).get(3); } catch (IndexOutOfBoundsException e) { System.out.println(e.getMessage()); }
        Random random = new Random(42);
        System.out.println(random.nextInt(100) + " " + random.nextDouble() + " " + random.nextLong() + " " + random.nextGaussian());
        Scanner scanner = new Scanner("12 abc 3.5\nline two");
        System.out.println(scanner.nextInt() + scanner.next() + scanner.nextLine() + scanner.nextLine());
        System.out.println(Objects.hash(1, "a", 2.0) + " " + Arrays.hashCode(new int[] {1, 2}) + " " + "text".hashCode()
            + " " + List.of("x").hashCode());
        System.out.println(new StringTokenizer("a b c").countTokens() + " " + UUID.nameUUIDFromBytes("x".getBytes())
            + " " + Base64.getEncoder().encodeToString("hello".getBytes()));
    }
}
