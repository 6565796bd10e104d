package small;

class Doubles {
    static final double NAN = Double.NaN;
    static final double UP = Double.POSITIVE_INFINITY;
    static final double DOWN = Double.NEGATIVE_INFINITY;
    static final double MOST = Double.MAX_VALUE;
    static final double LEAST = Double.MIN_VALUE;
    static final double NORMAL = Double.MIN_NORMAL;
    static final double BELOW = 0x0.fffffffffffffp-1022;
    static final double ZERO = -0.0;
    static final double THIRD = 1.0 / 3.0;
    static final double PI = Math.PI;
    static final double SMALL = 1e-300;
}
