import java.lang.reflect.*;
import java.util.*;

/** Reflection: members, calls, fields, arrays, generic types. */
public class Reflective {
    public static class Animal {
        protected String name = "animal";
        public int legs = 4;
        public Animal() {}
        public Animal(String name, int legs) { this.name = name; this.legs = legs; }
        public String speak(String word) { return name + " says " + word; }
        private int secret(long a, int b) { return (int) a + b; }
        public static double half(int x) { return x / 2.0; }
        public void fail() { throw new IllegalStateException("failed"); }
    }
    public static class Dog extends Animal implements Comparable<Dog> {
        public Dog() { super("dog", 4); }
        @Override public String speak(String word) { return "woof, " + super.speak(word); }
        @Override public int compareTo(Dog other) { return 0; }
    }
    public static void main(String[] args) throws Exception {
        Class<?> c = Class.forName("Reflective$Dog");
        Object dog = c.getConstructor().newInstance();
        Method speak = Animal.class.getMethod("speak", String.class);
        System.out.println(speak + " -> " + speak.invoke(dog, "hi"));
        for (int i = 0; i < 8; i++) speak.invoke(dog, "again");
        Method secret = Animal.class.getDeclaredMethod("secret", long.class, int.class);
        secret.setAccessible(true);
        System.out.println(secret.invoke(dog, 40L, 2));
        System.out.println(Animal.class.getMethod("half", int.class).invoke(null, 7));
        try { Animal.class.getMethod("fail").invoke(dog); } catch (InvocationTargetException e) { System.out.println(e.getCause()); }
        try { speak.invoke("text", "x"); } catch (IllegalArgumentException e) { System.out.println(e.getMessage()); }
        Field legs = Animal.class.getField("legs");
        legs.setInt(dog, 3);
        System.out.println(legs.get(dog) + " " + Modifier.toString(legs.getModifiers()) + " " + legs.getType());
        Object made = Animal.class.getConstructor(String.class, int.class).newInstance("cat", 4);
        System.out.println(((Animal) made).speak("meow"));
        List<String> names = new ArrayList<>();
        for (Method m : Dog.class.getDeclaredMethods()) names.add(m.getName() + Arrays.toString(m.getParameterTypes()) + (m.isBridge() ? "b" : ""));
        Collections.sort(names);
        System.out.println(names);
        System.out.println(c.getSuperclass() + " " + Arrays.toString(c.getInterfaces()) + " " + c.getEnclosingClass() + " " + c.isInstance(dog));
        Object array = Array.newInstance(int.class, 3);
        Array.setInt(array, 1, 5);
        System.out.println(Array.get(array, 1) + " " + array.getClass() + " " + Array.getLength(array));
        System.out.println(Arrays.toString(c.getGenericInterfaces()));
        try { Class.forName("no.such.Thing"); } catch (ClassNotFoundException e) { System.out.println(e.getMessage()); }
        System.out.println(Reflective.class.getClassLoader() != null);
    }
}
