class Dog extends Animal implements Speaker {
    @Override
    public String name() {
        return "a dog";
    }

    public String secret() {
        return "a bone";
    }

    @Override
    public String speak() {
        return "woof";
    }
}
