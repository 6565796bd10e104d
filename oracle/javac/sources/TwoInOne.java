package small;

class TwoInOne {
    Other other = new Other();
}

class Other {
    TwoInOne one;
}
