package linkd;

import java.util.stream.IntStream;

/** What a call site runs (java.lang.invoke.CallSite). */
public sealed interface Target {
    /** As docs/FORMATS.md has it, in JSON. */
    String json();

    /** Its parts by three numbers each, as linkd.h has them: a guard stands before its first part and its fallback. */
    IntStream parts();

    /**
     * A static method.
     *
     * @param type the class that declares it
     * @param method its place among those that the class declares
     */
    record Method(ClassId type, int method) implements Target {
        @Override
        public String json() {
            return "{\"method\":[" + type.number() + "," + method + "]}";
        }

        @Override
        public IntStream parts() {
            return IntStream.of(0, type.number(), method);
        }
    }

    /**
     * The first while the switch point is valid, then the second (java.lang.invoke.SwitchPoint).
     *
     * @param point the switch point
     * @param target the first
     * @param fallback the second
     */
    record Guard(SwitchId point, Target target, Target fallback) implements Target {
        @Override
        public String json() {
            return "{\"guard\":" + point.number() + ",\"target\":" + target.json() + ",\"fallback\":" + fallback.json() + "}";
        }

        @Override
        public IntStream parts() {
            return IntStream.concat(IntStream.of(1, point.number(), 0), IntStream.concat(target.parts(), fallback.parts()));
        }
    }

    /**
     * What another call site runs (java.lang.invoke.CallSite.dynamicInvoker).
     *
     * @param callSite the other one
     */
    record Invoker(CallSiteId callSite) implements Target {
        @Override
        public String json() {
            return "{\"invoker\":" + callSite.number() + "}";
        }

        @Override
        public IntStream parts() {
            return IntStream.of(2, callSite.number(), 0);
        }
    }
}
