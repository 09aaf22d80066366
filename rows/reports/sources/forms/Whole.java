// Its class file isn't there, so none of its nest has a host.
class Whole {
    static class Part {
        private int hidden() {
            return 1;
        }
    }

    static class Other {
        static int ask(Part part) {
            return part.hidden();
        }
    }
}
