package small;

enum Season {
    SPRING, SUMMER, AUTUMN, WINTER;

    Season next() {
        return values()[(ordinal() + 1) % values().length];
    }
}
