package small.lent;

public class Lent {}
