sealed interface Figure permits Disc, Tile {
    int sides();
}

record Disc(int radius) implements Figure {
    public int sides() {
        return 0;
    }
}

record Tile(int width) implements Figure {
    public int sides() {
        return 4;
    }
}

class Figures {
    static int count(Figure figure) {
        return switch (figure) {
            case Disc disc -> disc.radius();
            case Tile tile -> tile.width() + figure.sides();
        };
    }
}
