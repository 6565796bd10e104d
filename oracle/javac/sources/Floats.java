package small;

class Floats {
    static final float NAN = Float.NaN;
    static final float UP = Float.POSITIVE_INFINITY;
    static final float DOWN = Float.NEGATIVE_INFINITY;
    static final float MOST = Float.MAX_VALUE;
    static final float LEAST = Float.MIN_VALUE;
    static final float NORMAL = Float.MIN_NORMAL;
    static final float BELOW = 0x0.fffffep-126f;
    static final float ZERO = -0.0f;
    static final float TENTH = 0.1f;
    static final float MANY = 123456.79f;
}
