enum Colour {
    RED, GREEN
}
