package small;

record EmptyRecord() {}
