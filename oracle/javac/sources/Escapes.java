package small;

class Escapes {
    static final String QUOTE = "\"'\\";
    static final String LINES = "a\nb\r\tc\b\f";
    static final String CONTROL = "\u0001\u001b\u001f";
    static final String LEADING = "  two before";
    static final String COMMENT = "text // no comment";
    static final String HASH = "#1.#2";
    static final String EMPTY = "";
}
