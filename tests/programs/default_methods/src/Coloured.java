interface Coloured {
    default String text() {
        return "coloured";
    }
}
