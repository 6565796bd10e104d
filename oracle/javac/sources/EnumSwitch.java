package small;

class EnumSwitch {
    static String of(Thread.State state) {
        return switch (state) {
            case NEW -> "new";
            case RUNNABLE, BLOCKED -> "busy";
            default -> "other";
        };
    }
}
