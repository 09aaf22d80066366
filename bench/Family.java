import java.util.ArrayList;
import java.util.HashMap;
import java.util.List;
import java.util.Map;
import java.util.TreeSet;

/** Classes of one loader by number: why one more isn't accepted, who is whose ancestor, what may have objects. */
final class Family {
    private final List<ClassHead> heads = new ArrayList<>();
    private final Map<String, Integer> numbers = new HashMap<>();
    // Of each class, itself among them: the ancestors, and the classes below it that may have objects.
    private final List<TreeSet<Integer>> ancestors = new ArrayList<>();
    private final List<List<Integer>> receivers = new ArrayList<>();

    int size() {
        return heads.size();
    }

    ClassHead head(int number) {
        return number >= 0 && number < heads.size() ? heads.get(number) : null;
    }

    /** The class of that name, or -1. */
    int number(String name) {
        return numbers.getOrDefault(name, -1);
    }

    boolean isAncestor(int upper, int lower) {
        return ancestors.get(lower).contains(upper);
    }

    boolean areRelated(int one, int other) {
        return isAncestor(one, other) || isAncestor(other, one);
    }

    /** The classes below this one that may have objects, by rising number. */
    List<Integer> receivers(int number) {
        return receivers.get(number);
    }

    /** The refusal of the definition, and the parent that it names after a blank, or null. */
    String refusal(ClassHead made) {
        if (numbers.containsKey(made.name())) {
            return "Define.AlreadyRecorded";
        }
        for (String parent : made.parents()) {
            if (!numbers.containsKey(parent)) {
                return "Define.MissingParent " + parent;
            }
        }
        if (made.superclass() != null && heads.get(number(made.superclass())).is(ClassHead.INTERFACE)) {
            return "Define.SuperIsInterface";
        }
        if (made.superclass() != null && heads.get(number(made.superclass())).is(ClassHead.FINAL)) {
            return "Define.FinalSuper";
        }
        for (String parent : made.interfaces()) {
            if (!heads.get(number(parent)).is(ClassHead.INTERFACE)) {
                return "Define.NotAnInterface " + parent;
            }
        }
        for (String parent : made.parents()) {
            ClassHead head = heads.get(number(parent));
            if (!head.is(ClassHead.PUBLIC) && !head.packageName().equals(made.packageName())) {
                return "Define.InaccessibleParent " + parent;
            }
        }
        return null;
    }

    /** Adds a class that isn't refused. */
    void add(ClassHead made) {
        int number = heads.size();
        TreeSet<Integer> above = new TreeSet<>(List.of(number));
        for (String parent : made.parents()) {
            above.addAll(ancestors.get(number(parent)));
        }
        heads.add(made);
        numbers.put(made.name(), number);
        ancestors.add(above);
        receivers.add(new ArrayList<>());
        if (made.isConcrete()) {
            for (int upper : above) {
                receivers.get(upper).add(number);
            }
        }
    }
}
