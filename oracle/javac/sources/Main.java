package small;

public class Main {
    public static void main(String... arguments) {
        System.out.println("Hello, " + String.join("-", arguments) + "!");
    }
}
