package small;

class Dollar$Name {
    int $ = 1;
    int _a1 = $;
}
