package small;

class ConcatenationOfTags {
    // the recipe's own marks stand in a constant, so that it becomes an argument of the bootstrap method
    static String marked(String s) {
        return "\u0001" + s + "\u0002" + s.length();
    }
}
