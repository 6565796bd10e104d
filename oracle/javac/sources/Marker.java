package small;

interface Marker {}
