package small;

class Unicode {
    static final String GREEK = "λόγος";
    static final String SNOW = "☃ and ️";
    static final String BEYOND = "\ud83d\ude00 \ud834\udd1e";
    static final String ZERO = "a\0b";
    static final String EDGES = "\u007f\u0080\u07ff\u0800\uffff";
    int größe;

    void δοκιμή() {
        größe++;
    }
}
