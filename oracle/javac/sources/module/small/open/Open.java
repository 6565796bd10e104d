package small.open;

public class Open {}
