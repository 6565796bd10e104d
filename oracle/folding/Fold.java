import java.io.BufferedInputStream;
import java.io.BufferedOutputStream;
import java.io.DataInputStream;
import java.io.DataOutputStream;
import java.io.IOException;

/**
 * Answers operations: a kind (3 int, 4 float, 5 long, 6 double), a sign and two operands, bits in eight bytes each. An answer is 1 and the
 * result's bits in eight bytes, or 0 for an integer divided by zero. A NaN's bits are those of floatToIntBits and doubleToLongBits.
 */
class Fold {
    public static void main(String[] arguments) throws IOException {
        DataInputStream in = new DataInputStream(new BufferedInputStream(System.in, 1 << 16));
        DataOutputStream out = new DataOutputStream(new BufferedOutputStream(System.out, 1 << 16));
        for (int kind = in.read(); kind >= 0; kind = in.read()) {
            int sign = in.read();
            long first = in.readLong();
            long second = in.readLong();
            try {
                long result = result(kind, sign, first, second);
                out.writeByte(1);
                out.writeLong(result);
            } catch (ArithmeticException byZero) {
                out.writeByte(0);
            }
        }
        out.flush();
    }

    static long result(int kind, int sign, long first, long second) {
        switch (kind) {
            case 3: return ints(sign, (int) first, (int) second) & 0xffffffffL;
            case 4: {
                float value = floats(sign, Float.intBitsToFloat((int) first), Float.intBitsToFloat((int) second));
                return Float.floatToIntBits(value) & 0xffffffffL;
            }
            case 5: return longs(sign, first, second);
            default: {
                double value = doubles(sign, Double.longBitsToDouble(first), Double.longBitsToDouble(second));
                return Double.doubleToLongBits(value);
            }
        }
    }

    static int ints(int sign, int a, int b) {
        switch (sign) {
            case '+': return a + b;
            case '-': return a - b;
            case '*': return a * b;
            default: return a / b;
        }
    }

    static long longs(int sign, long a, long b) {
        switch (sign) {
            case '+': return a + b;
            case '-': return a - b;
            case '*': return a * b;
            default: return a / b;
        }
    }

    static float floats(int sign, float a, float b) {
        switch (sign) {
            case '+': return a + b;
            case '-': return a - b;
            case '*': return a * b;
            default: return a / b;
        }
    }

    static double doubles(int sign, double a, double b) {
        switch (sign) {
            case '+': return a + b;
            case '-': return a - b;
            case '*': return a * b;
            default: return a / b;
        }
    }
}
