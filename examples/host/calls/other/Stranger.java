package other;

class Stranger {
}
