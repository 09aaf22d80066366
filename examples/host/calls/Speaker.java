interface Speaker {
    String speak();
}
