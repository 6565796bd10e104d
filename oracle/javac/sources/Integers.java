package small;

class Integers {
    static final int LEAST = Integer.MIN_VALUE;
    static final int MOST = Integer.MAX_VALUE;
    static final int SHORT = 32768;
    static final int MINUS = -32769;
    static final char CHAR = '\uffff';
    static final byte BYTE = -128;
    static final boolean YES = true;
}
