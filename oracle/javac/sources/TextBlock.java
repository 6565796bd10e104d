package small;

class TextBlock {
    static String page() {
        return """
            <p class="x">
              Text \\ with "quotes"
            </p>
            """;
    }
}
