import java.io.IOException;
import java.lang.invoke.CallSite;
import java.lang.invoke.ConstantCallSite;
import java.lang.invoke.MethodHandle;
import java.lang.invoke.MethodHandles;
import java.lang.invoke.MethodType;
import java.lang.invoke.MutableCallSite;
import java.lang.invoke.SwitchPoint;
import java.lang.invoke.VolatileCallSite;
import java.nio.file.Files;
import java.nio.file.Path;
import java.util.ArrayList;
import java.util.List;
import java.util.Random;

/**
 * Draws call sites whose targets invoke earlier ones (CallSite.dynamicInvoker), guards of switch points, new targets and invalidations.
 * Each is made by java.lang.invoke and written as a line of `linkd run`; after each, every call site runs, here and by a line. Writes
 * the lines to the first file, and to the second for each line the answer that it must have, or an empty line where that is left open.
 */
public final class Invokers {
    private static final int CALL_SITES = 24;
    private static final int STEPS = 1500;
    private static final MethodType TYPE = MethodType.methodType(int.class);

    /** A target, here and in a line. */
    private record Target(MethodHandle handle, String text) {}

    private final Random random = new Random(1);
    private final MethodHandle[] methods = {MethodHandles.constant(int.class, 0), MethodHandles.constant(int.class, 1)};
    private final List<CallSite> sites = new ArrayList<>();
    private final List<SwitchPoint> points = new ArrayList<>();
    private final List<String> lines = new ArrayList<>();
    private final List<String> answers = new ArrayList<>();

    public static void main(String[] words) throws Throwable {
        Invokers drawn = new Invokers();
        drawn.define();
        for (int step = 0; step < STEPS; step++) {
            drawn.change();
            drawn.callAll();
        }
        Files.write(Path.of(words[0]), drawn.lines);
        Files.write(Path.of(words[1]), drawn.answers);
        System.out.println(drawn.lines.size() + " lines, " + drawn.sites.size() + " call sites, " + drawn.points.size() + " switch points");
    }

    private void say(String line, String answer) {
        lines.add(line);
        answers.add(answer);
    }

    /** The class T with the methods 0 and 1, and a method with an invokedynamic for each call site. */
    private void define() {
        StringBuilder calls = new StringBuilder();
        for (int site = 0; site < CALL_SITES; site++) {
            calls.append(site == 0 ? "" : ",").append("{\"kind\":\"invokedynamic\",\"name\":\"d\",\"type\":\"()V\"}");
        }
        say("{\"do\":\"define\",\"loader\":0,\"sketch\":{\"name\":\"java/lang/Object\",\"flags\":33}}", "{\"class\":0,\"dropped\":[]}");
        say("{\"do\":\"define\",\"loader\":0,\"sketch\":{\"name\":\"T\",\"super\":\"java/lang/Object\",\"flags\":33,\"methods\":["
            + "{\"name\":\"m\",\"type\":\"()V\",\"flags\":9},{\"name\":\"n\",\"type\":\"()V\",\"flags\":9},"
            + "{\"name\":\"r\",\"type\":\"()V\",\"flags\":9,\"calls\":[" + calls + "]}]}}", "{\"class\":1,\"dropped\":[]}");
    }

    private void change() {
        int draw = random.nextInt(10);
        if (points.size() < 4 || draw == 0) {
            say("{\"do\":\"switch\"}", "{\"dropped\":[],\"switch\":" + points.size() + "}");
            points.add(new SwitchPoint());
        } else if (sites.size() < CALL_SITES && draw < 6) {
            addCallSite();
        } else if (draw == 1) {
            int point = random.nextInt(points.size());
            SwitchPoint.invalidateAll(new SwitchPoint[] {points.get(point)});
            say("{\"do\":\"invalidate\",\"switches\":[" + point + "]}", "");
        } else if (!sites.isEmpty()) {
            retarget(random.nextInt(sites.size()));
        }
    }

    private void addCallSite() {
        int number = sites.size();
        Target target = target(number, 3);
        int kind = random.nextInt(4);
        String name = kind == 0 ? "constant" : kind == 1 ? "volatile" : "mutable";
        sites.add(kind == 0 ? new ConstantCallSite(target.handle)
            : kind == 1 ? new VolatileCallSite(target.handle) : new MutableCallSite(target.handle));
        say("{\"do\":\"callsite\",\"kind\":\"" + name + "\",\"type\":\"()V\",\"target\":" + target.text + "}",
            "{\"callsite\":" + number + ",\"dropped\":[]}");
        say("{\"do\":\"request\",\"class\":1,\"method\":2,\"pc\":" + 5 * number + "}", "{\"dropped\":[],\"site\":" + number + "}");
        say("{\"do\":\"bind\",\"site\":" + number + ",\"callsite\":" + number + "}", "{\"dropped\":[]}");
    }

    private void retarget(int number) {
        Target target = target(number, 3);
        String answer = "";
        try {
            sites.get(number).setTarget(target.handle);
        } catch (UnsupportedOperationException constant) {
            answer = "{\"refused\":\"CallSite.Constant\"}";
        }
        say("{\"do\":\"target\",\"callsite\":" + number + ",\"target\":" + target.text + "}", answer);
    }

    /** A target of the call site of this number, with so many guards within one another at most. */
    private Target target(int number, int depth) {
        int draw = random.nextInt(4);
        if (draw < 2 && depth > 0) {
            int point = random.nextInt(points.size());
            Target first = target(number, depth - 1);
            Target fallback = target(number, depth - 1);
            return new Target(points.get(point).guardWithTest(first.handle, fallback.handle),
                "{\"guard\":" + point + ",\"target\":" + first.text + ",\"fallback\":" + fallback.text + "}");
        }
        if (draw < 3 && number > 0) {
            int invoked = random.nextInt(number);
            return new Target(sites.get(invoked).dynamicInvoker(), "{\"invoker\":" + invoked + "}");
        }
        int method = random.nextInt(2);
        return new Target(methods[method].asType(TYPE), "{\"method\":[1," + method + "]}");
    }

    /** What each call site runs, which is what a call of its invokedynamic answers. */
    private void callAll() throws Throwable {
        for (int number = 0; number < sites.size(); number++) {
            int method = (int) sites.get(number).getTarget().invokeExact();
            say("{\"do\":\"call\",\"site\":" + number + "}", "{\"run\":[1," + method + "]}");
        }
    }
}
