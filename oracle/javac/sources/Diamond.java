package small;

class Diamond {
    interface Left {
        default String name() {
            return "left";
        }
    }

    interface Right {
        default String name() {
            return "right";
        }
    }

    static class Both implements Left, Right {
        public String name() {
            return Left.super.name() + Right.super.name();
        }
    }
}
