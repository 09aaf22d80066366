class Chicken extends Egg {}
