class Greeter {
    Runnable greet(String name) {
        return () -> System.out.println(name);
    }
}
