package small;

class Longs {
    static final long LEAST = Long.MIN_VALUE;
    static final long MOST = Long.MAX_VALUE;
    static final long TWO = 2L;
    static final long MINUS = -4294967297L;

    static long sum() {
        return 1234567890123L + 0L + 1L;
    }
}
