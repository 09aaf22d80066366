public class Animal {
    public static int count() {
        return 1;
    }

    public String name() {
        return "an animal";
    }

    private String secret() {
        return name() + "'s secret";
    }

    protected String kept() {
        return secret();
    }
}
