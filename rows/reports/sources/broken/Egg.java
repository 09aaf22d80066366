class Egg extends Chicken {}
