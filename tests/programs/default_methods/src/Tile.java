/** Both interfaces have a text of their own, so the class says which one it takes. */
class Tile extends Square implements Coloured {
    Tile(int side) {
        super(side);
    }

    @Override
    public int doubled() {
        return Main.EXACT ? super.doubled() : side;
    }

    public String text() {
        return Main.COLOUR ? Coloured.super.text() + " " + super.text() : super.text();
    }
}
