package linkd;

import java.nio.ByteBuffer;
import java.util.ArrayList;
import java.util.Collections;
import java.util.List;
import java.util.Map;
import java.util.Objects;
import java.util.Optional;
import java.util.concurrent.CompletableFuture;
import java.util.stream.IntStream;
import linkd.Refusal.DefineFault;
import linkd.Refusal.ReleaseFault;
import linkd.Refusal.RetireFault;
import linkd.Refusal.SiteFault;

/**
 * The worked example of the repository's README, and what a bad input gets. What is expected is what JVMS SE 17 §5.3.5, §5.4.6 and §6.5
 * say. It ends with status 1 where a test fails.
 */
final class Tests {
    private static final int PUBLIC = 0x0001;
    private static final int PRIVATE = 0x0002;
    private static final int PROTECTED = 0x0004;
    private static final int PUBLIC_STATIC = 0x0009;
    private static final int INVOKEVIRTUAL = 182;
    private static final int INVOKESTATIC = 184;
    private static final String OBJECT = "java/lang/Object";
    private static final Refusal BAD_VERSION = new Refusal.NoClassFile(Refusal.ClassFault.BAD_VERSION, 0, 0, 0);

    private Tests() {
    }

    /** A test. */
    private interface Test {
        void run() throws Exception;
    }

    private static void same(Object wanted, Object is) {
        if (!Objects.equals(wanted, is)) {
            throw new AssertionError("wanted " + wanted + ", is " + is);
        }
    }

    private static void refused(Refusal wanted, Test call) throws Exception {
        try {
            call.run();
        } catch (RefusedException refused) {
            same(wanted, refused.refusal());
            return;
        }
        throw new AssertionError("wanted a refusal: " + wanted);
    }

    private static byte[] withF(String name, String parent) {
        return Written.file(name, parent, new Written.Method(PUBLIC, "f", List.of()));
    }

    private static Written.Call call(String of, String name, String type) {
        return new Written.Call(INVOKEVIRTUAL, of, name, type);
    }

    /** M, whose static method m calls A.f at pc 0, Z.f at 3, an array's clone at 6 and MethodHandle.invoke at 9. */
    private static byte[] caller() {
        List<Written.Call> calls = List.of(call("A", "f", "()V"), call("Z", "f", "()V"), call("[LA;", "clone", "()Ljava/lang/Object;"),
                call("java/lang/invoke/MethodHandle", "invoke", "()V"));
        Written.Method called = new Written.Method(PUBLIC_STATIC, "n", List.of());
        return Written.file("M", OBJECT, new Written.Method(PUBLIC_STATIC, "m", calls), called);
    }

    /** Object, A with f, B below it without, and M, whose call of A.f is installed. */
    private record World(Linker linker, ClassId a, ClassId b, ClassId m, SiteId site) implements AutoCloseable {
        static World open() {
            Linker linker = Linker.open(100);
            linker.define(Written.file(OBJECT, null));
            ClassId a = linker.define(withF("A", OBJECT));
            ClassId b = linker.define(Written.file("B", "A"));
            ClassId m = linker.define(caller());
            SiteId site = linker.request(m, 0, 0);
            linker.install(List.of(site));
            return new World(linker, a, b, m, site);
        }

        @Override
        public void close() {
            linker.close();
        }
    }

    private static Answer.Run runs(ClassId type) {
        return new Answer.Run(type, 0);
    }

    /** The link of the call of A.f where A, B and C below it are its receivers, and C overrides f. */
    private static Link table(World world, ClassId c) {
        List<Link.Row> rows = List.of(new Link.Row(world.a, runs(world.a)), new Link.Row(world.b, runs(world.a)), new Link.Row(c, runs(c)));
        return new Link.Table(false, rows);
    }

    private static void aClassThatOverridesDropsTheLink() {
        try (World world = World.open()) {
            Linker linker = world.linker;
            same(Optional.of(new Link.Direct(runs(world.a))), linker.linkOf(world.site));
            same(runs(world.a), linker.call(world.site, world.b));
            same(new Answer.Throws(Answer.Error.NULL_POINTER_EXCEPTION), linker.call(world.site));
            same(List.of(), linker.dropped());

            ClassId c = linker.define(withF("C", "A"));
            same(List.of(world.site), linker.dropped());
            same(Optional.empty(), linker.linkOf(world.site));
            same(runs(c), linker.call(world.site, c));

            linker.install(List.of(world.site));
            same(Optional.of(table(world, c)), linker.linkOf(world.site));
        }
    }

    private static void aSeatAnswersByItsLastRefresh() throws Exception {
        World world = World.open();
        Seat seat = world.linker.seat();
        same(Optional.of(runs(world.a)), seat.call(world.site, world.b));
        same(Optional.of(new Answer.Throws(Answer.Error.NULL_POINTER_EXCEPTION)), seat.call(world.site));
        ClassId c = world.linker.define(withF("C", "A"));
        world.linker.install(List.of(world.site));
        same(Optional.empty(), seat.call(world.site, c));
        seat.refresh();
        same(Optional.of(runs(c)), seat.call(world.site, c));
        // A seat may outlive its linker.
        world.close();
        same(Optional.of(runs(c)), seat.call(world.site, c));
        refused(Refusal.Plain.CLOSED, seat::refresh);
        seat.close();
        refused(Refusal.Plain.CLOSED, () -> seat.call(world.site, c));
    }

    /** What a call throws in another thread. */
    private static Class<?> thrownBy(Runnable call) throws InterruptedException {
        List<Throwable> thrown = Collections.synchronizedList(new ArrayList<>());
        Thread other = new Thread(call);
        other.setUncaughtExceptionHandler((thread, fault) -> thrown.add(fault));
        other.start();
        other.join();
        same(1, thrown.size());
        return thrown.get(0).getClass();
    }

    private static void aSeatBelongsToItsThread() throws Exception {
        try (World world = World.open(); Seat seat = world.linker.seat()) {
            same(WrongThreadException.class, thrownBy(() -> seat.call(world.site)));
            same(WrongThreadException.class, thrownBy(seat::close));
        }
    }

    private static void threadsShareALinker() throws Exception {
        List<Object> answers = Collections.synchronizedList(new ArrayList<>());
        try (World world = World.open()) {
            List<Thread> threads = new ArrayList<>();
            for (int i = 0; i < 4; i++) {
                threads.add(new Thread(() -> {
                    try (Seat seat = world.linker.seat()) {
                        for (int call = 0; call < 1_000; call++) {
                            same(Optional.of(runs(world.a)), seat.call(world.site, world.b));
                        }
                        answers.add(world.linker.call(world.site, world.b));
                    }
                }));
            }
            threads.forEach(Thread::start);
            for (Thread thread : threads) {
                thread.join();
            }
            same(Collections.nCopies(4, runs(world.a)), answers);
        }
    }

    private static void badFilesAreRefusedByName() throws Exception {
        try (Linker linker = Linker.open(1)) {
            refused(new Refusal.NoClassFile(Refusal.ClassFault.TRUNCATED, 0, 0, 0), () -> linker.define(new byte[0]));
            refused(new Refusal.NoClassFile(Refusal.ClassFault.BAD_MAGIC, 0, 0, 0), () -> linker.define("no class file".getBytes()));
            refused(BAD_VERSION, () -> linker.define(Written.fileOfVersion(62, OBJECT, null)));
        }
    }

    private static void laterFilesAreDefinedUpToAVersion() throws Exception {
        byte[] file = Written.fileOfVersion(65, OBJECT, null);
        try (Linker linker = Linker.open(1)) {
            refused(BAD_VERSION, () -> linker.define(file));
            refused(BAD_VERSION, () -> linker.defineUpTo(LoaderId.FIRST, 64, file));
            refused(Refusal.Plain.MALFORMED, () -> linker.defineUpTo(LoaderId.FIRST, -1, file));
            refused(Refusal.Plain.MALFORMED, () -> linker.defineUpTo(LoaderId.FIRST, 65_536, file));
            same(Optional.of(OBJECT), linker.className(linker.defineUpTo(LoaderId.FIRST, Linker.NEWEST_KNOWN, file)));
            linker.defineUpTo(LoaderId.FIRST, 65, Written.fileOfVersion(65, "A", OBJECT));
            linker.defineUpTo(LoaderId.FIRST, 65, Written.file("B", "A"));
            refused(BAD_VERSION, () -> linker.define(Written.fileOfVersion(Linker.NEWEST_OF_17 + 1, "D", "B")));
            linker.define(Written.fileOfVersion(Linker.NEWEST_OF_17, "D", "B"));
            // The library takes the number without a sign.
            linker.defineUpTo(LoaderId.FIRST, 65_535, Written.fileOfVersion(65_535, "C", "B"));
        }
    }

    private static void definitionsAreRefusedByName() throws Exception {
        try (Linker linker = Linker.open(1)) {
            byte[] a = withF("A", OBJECT);
            refused(new Refusal.Define(DefineFault.MISSING_PARENT), () -> linker.define(a));
            linker.define(Written.file(OBJECT, null));
            linker.define(a);
            refused(new Refusal.Define(DefineFault.ALREADY_RECORDED), () -> linker.define(a));
            LoaderId other = linker.newLoader();
            refused(new Refusal.Define(DefineFault.SECOND_OBJECT), () -> linker.define(other, Written.file(OBJECT, null)));
            refused(new Refusal.Delegate(Refusal.DelegateFault.NOT_RECORDED), () -> linker.delegate(other, "N", LoaderId.FIRST));
            linker.delegate(other, "A", LoaderId.FIRST);
            refused(new Refusal.Delegate(Refusal.DelegateFault.ALREADY_RECORDED), () -> linker.delegate(other, "A", LoaderId.FIRST));
            linker.define(other, withF("D", "A"));
            refused(new Refusal.Retire(RetireFault.FIRST_LOADER, 0), () -> linker.retire(LoaderId.FIRST));
            linker.retire(other);
            refused(new Refusal.Retire(RetireFault.NO_LOADER, 0), () -> linker.retire(other));
        }
    }

    /** The first loader has C and records D, and the second has D and records C: each alone is held by the other. */
    private static void loadersThatRecordEachOtherGoAtOnce() throws Exception {
        try (World world = World.open()) {
            Linker linker = world.linker;
            LoaderId first = linker.newLoader();
            LoaderId second = linker.newLoader();
            LoaderId third = linker.newLoader();
            linker.delegate(first, "A", LoaderId.FIRST);
            linker.delegate(second, "A", LoaderId.FIRST);
            ClassId c = linker.define(first, withF("C", "A"));
            linker.define(second, withF("D", "A"));
            linker.delegate(first, "D", second);
            linker.delegate(second, "C", first);
            linker.delegate(third, "C", first);
            linker.install(List.of(world.site));
            Optional<Link> before = linker.linkOf(world.site);
            RetireFault held = RetireFault.RECORDED;
            refused(new Refusal.Retire(held, second.number()), () -> linker.retire(first));
            refused(new Refusal.Retire(held, first.number()), () -> linker.retire(second));
            refused(new Refusal.RetireAll(first, held, third.number()), () -> linker.retireAll(List.of(second, first)));
            refused(new Refusal.RetireAll(LoaderId.FIRST, RetireFault.FIRST_LOADER, 0), () -> linker.retireAll(List.of(third, LoaderId.FIRST)));
            linker.retireAll(List.of());
            same(before, linker.linkOf(world.site));
            same(List.of(), linker.dropped());
            linker.retireAll(List.of(first, second, third, first));
            same(Optional.empty(), linker.linkOf(world.site));
            same(List.of(world.site), linker.dropped());
            same(new Answer.BadReceiver(), linker.call(world.site, c));
            refused(new Refusal.RetireAll(second, RetireFault.NO_LOADER, 0), () -> linker.retireAll(List.of(second)));
            linker.install(List.of(world.site));
        }
    }

    /** The first call site's target names a method of loader 1, the second invokes the first, and the third guards by the switch point. */
    private static void callSitesGoBeforeTheLoaderThatTheyHold() throws Exception {
        try (World world = World.open()) {
            Linker linker = world.linker;
            LoaderId loader = linker.newLoader();
            linker.delegate(loader, OBJECT, LoaderId.FIRST);
            ClassId n = linker.define(loader, Written.file("N", OBJECT, new Written.Method(PUBLIC_STATIC, "n", List.of())));
            SwitchId point = linker.newSwitch();
            Target method = new Target.Method(world.m, 1);
            CallSiteId plain = linker.newCallSite(CallSiteKind.MUTABLE, "()V", new Target.Method(n, 0));
            CallSiteId invoking = linker.newCallSite(CallSiteKind.MUTABLE, "()V", new Target.Invoker(plain));
            CallSiteId guarded = linker.newCallSite(CallSiteKind.MUTABLE, "()V", new Target.Guard(point, method, method));
            refused(new Refusal.Retire(RetireFault.TARGETED, plain.number()), () -> linker.retire(loader));
            refused(new Refusal.Release(ReleaseFault.INVOKED, invoking.number()), () -> linker.release(List.of(plain), List.of()));
            refused(new Refusal.Release(ReleaseFault.GUARDED, guarded.number()), () -> linker.release(List.of(plain, invoking), List.of(point)));
            linker.release(List.of(), List.of());
            linker.release(List.of(plain, invoking, plain), List.of());
            linker.retire(loader);
            refused(new Refusal.Release(ReleaseFault.NO_CALL_SITE, invoking.number()), () -> linker.release(List.of(invoking, plain), List.of()));
            refused(new Refusal.CallSite(Refusal.CallSiteFault.UNKNOWN_CALL_SITE, 0), () -> linker.setTarget(plain, method));
            same(new CallSiteId(3), linker.newCallSite(CallSiteKind.MUTABLE, "()V", method));
            linker.release(List.of(guarded), List.of(point));
            refused(new Refusal.Release(ReleaseFault.NO_SWITCH, point.number()), () -> linker.release(List.of(), List.of(point)));
        }
    }

    private static void sitesAreRefusedByName() throws Exception {
        try (World world = World.open()) {
            Linker linker = world.linker;
            refused(Refusal.Plain.NO_SUCH_PLACE, () -> linker.request(world.m, 0, 1));
            refused(Refusal.Plain.MALFORMED, () -> linker.request(world.m, 65_536, 0));
            refused(Refusal.Plain.UNKNOWN_CLASS, () -> linker.request(new ClassId(99), 0, 0));
            refused(new Refusal.NotLinkable(Refusal.Form.ARRAY_RECEIVER), () -> linker.request(world.m, 0, 6));
            refused(new Refusal.NotLinkable(Refusal.Form.POLYMORPHIC_SIGNATURE), () -> linker.request(world.m, 0, 9));
            SiteId pending = linker.request(world.m, 0, 3);
            refused(new Refusal.Site(SiteFault.NOT_READY, pending.number()), () -> linker.install(List.of(pending)));
            same(new Answer.Unlinked(Answer.Want.NAMED_CLASS), linker.call(pending));
            refused(new Refusal.Site(SiteFault.REPEATED, 0), () -> linker.install(List.of(world.site, world.site)));
            refused(new Refusal.Site(SiteFault.UNKNOWN_SITE, 9), () -> linker.install(List.of(new SiteId(9))));
            refused(Refusal.Plain.BATCH_SIZE, () -> linker.install(List.of()));
            refused(Refusal.Plain.MALFORMED, () -> Linker.open(0));
            refused(Refusal.Plain.MALFORMED, () -> Linker.open(1_048_577));
        }
    }

    private static void aLinkerHasLimitsOfItsOwn() throws Exception {
        try (Linker linker = Linker.open(new Limits(1, 2, 3, 1, 1))) {
            linker.define(Written.file(OBJECT, null));
            ClassId a = linker.define(withF("A", OBJECT));
            ClassId m = linker.define(caller());
            refused(new Refusal.Define(Refusal.DefineFault.CLASSES_FULL), () -> linker.define(withF("B", OBJECT)));
            same(new LoaderId(1), linker.newLoader());
            refused(Refusal.Plain.LOADERS_FULL, linker::newLoader);
            linker.request(m, 0, 0);
            refused(Refusal.Plain.SITES_FULL, () -> linker.request(m, 0, 3));
            linker.newSwitch();
            refused(new Refusal.CallSite(Refusal.CallSiteFault.CALL_SITES_FULL, 0), linker::newSwitch);
            Target target = new Target.Method(m, 1);
            linker.newCallSite(CallSiteKind.MUTABLE, "()V", target);
            refused(new Refusal.CallSite(Refusal.CallSiteFault.CALL_SITES_FULL, 0),
                    () -> linker.newCallSite(CallSiteKind.MUTABLE, "()V", target));

            Renewal renewal = linker.renew(2, Released.NOTHING);
            try (Linker fresh = renewal.linker()) {
                refused(Refusal.Plain.LOADERS_FULL, fresh::newLoader);
                same(new SiteId(1), fresh.request(m, 0, 3));
                same(Optional.of(a), renewal.type(a));
            }
        }
        refused(Refusal.Plain.MALFORMED, () -> Linker.open(Limits.ofSites(0)));
        refused(Refusal.Plain.MALFORMED, () -> Linker.open(new Limits(1, Limits.MOST + 1, 0, 0, 0)));
        refused(Refusal.Plain.MALFORMED, () -> Linker.open(new Limits(1, 0, 0, 0, -1)));
        try (Linker linker = Linker.open(new Limits(1, 0, 0, 0, 0))) {
            for (int number = 1; number <= 2_000; number++) {
                same(new LoaderId(number), linker.newLoader());
            }
        }
    }

    private static void aCallSiteHasTargets() throws Exception {
        try (World world = World.open()) {
            Linker linker = world.linker;
            SwitchId point = linker.newSwitch();
            Target method = new Target.Method(world.m, 1);
            CallSiteId callSite = linker.newCallSite(CallSiteKind.MUTABLE, "()V", new Target.Guard(point, method, method));
            linker.setTarget(callSite, method);
            refused(new Refusal.CallSite(Refusal.CallSiteFault.NOT_STATIC, 0),
                    () -> linker.setTarget(callSite, new Target.Method(world.a, 0)));
            linker.invalidate(List.of(point));
            refused(Refusal.Plain.NOT_DYNAMIC, () -> linker.bind(world.site, callSite));
            CallSiteId constant = linker.newCallSite(CallSiteKind.CONSTANT, "()V", new Target.Invoker(callSite));
            refused(new Refusal.CallSite(Refusal.CallSiteFault.CONSTANT, 0), () -> linker.setTarget(constant, method));
            refused(Refusal.Plain.MALFORMED, () -> linker.newCallSite(CallSiteKind.VOLATILE, "V", method));
        }
    }

    /**
     * Loader 1's class C 4 goes with it, so that D has another number in the fresh linker; of two call sites and two switch points the first
     * ones are let go, but the first switch point guards the second call site.
     */
    private static void aFreshLinkerHasWhatStays() throws Exception {
        try (World world = World.open()) {
            Linker linker = world.linker;
            LoaderId loader = linker.newLoader();
            linker.delegate(loader, OBJECT, LoaderId.FIRST);
            linker.delegate(loader, "A", LoaderId.FIRST);
            ClassId c = linker.define(loader, withF("C", "A"));
            linker.retire(loader);
            ClassId d = linker.define(withF("D", "A"));
            linker.install(List.of(world.site));
            SwitchId first = linker.newSwitch();
            SwitchId second = linker.newSwitch();
            Target method = new Target.Method(world.m, 1);
            CallSiteId plain = linker.newCallSite(CallSiteKind.MUTABLE, "()V", method);
            CallSiteId guarded = linker.newCallSite(CallSiteKind.MUTABLE, "()V", new Target.Guard(first, method, method));

            Renewal renewal = linker.renew(50, new Released(List.of(plain), List.of(first)));
            same(Optional.of(LoaderId.FIRST), renewal.loader(LoaderId.FIRST));
            same(Optional.empty(), renewal.loader(loader));
            same(List.of(Optional.of(world.m), Optional.empty(), Optional.of(c)),
                    List.of(renewal.type(world.m), renewal.type(c), renewal.type(d)));
            same(List.of(Optional.of(world.site), Optional.empty()), List.of(renewal.site(world.site), renewal.site(new SiteId(1))));
            same(List.of(Optional.empty(), Optional.of(plain)), List.of(renewal.callSite(plain), renewal.callSite(guarded)));
            same(List.of(Optional.of(first), Optional.of(second)), List.of(renewal.point(first), renewal.point(second)));
            same(runs(d), linker.call(world.site, d));
            try (Linker fresh = renewal.linker(); Seat seat = fresh.seat()) {
                // D is class 4 there.
                same(Optional.of(table(world, c)), fresh.linkOf(world.site));
                same(Optional.of(runs(c)), seat.call(world.site, c));
                refused(Refusal.Plain.MALFORMED, () -> fresh.renew(0, Released.NOTHING));
                SiteId other = fresh.request(world.m, 0, 3);
                refused(Refusal.Plain.SITES_FULL, () -> fresh.renew(1, Released.NOTHING));
                Renewal again = fresh.renew(2, Released.NOTHING);
                same(Optional.of(other), again.site(other));
                again.linker().close();
            }
        }
    }

    /**
     * Loader 1 is retired with its class C 4 before the begin, so that D, which is defined since, is class 4 in the fresh linker; of two call
     * sites the first one is let go.
     */
    private static void aRenewingGoesOnBesideItsLinker() throws Exception {
        try (World world = World.open()) {
            Linker linker = world.linker;
            LoaderId loader = linker.newLoader();
            SwitchId point = linker.newSwitch();
            linker.delegate(loader, OBJECT, LoaderId.FIRST);
            ClassId c = linker.define(loader, withF("C", OBJECT));
            linker.retire(loader);
            Target method = new Target.Method(world.m, 1);
            CallSiteId plain = linker.newCallSite(CallSiteKind.MUTABLE, "()V", method);
            Renewal renewal;
            ClassId d;
            CallSiteId guarded;
            try (Renewing renewing = linker.beginRenewal(50, new Released(List.of(plain), List.of()))) {
                same(0L, renewing.take(2));
                renewing.fill();
                d = linker.define(withF("D", "A"));
                same(0L, renewing.take(Long.MAX_VALUE));
                renewing.fill();
                linker.install(List.of(world.site));
                guarded = linker.newCallSite(CallSiteKind.MUTABLE, "()V", new Target.Guard(point, method, method));
                linker.invalidate(List.of(point));
                same(3L, renewing.take(0));
                renewal = renewing.finish();
                refused(Refusal.Plain.CLOSED, renewing::fill);
                refused(Refusal.Plain.CLOSED, renewing::finish);
            }
            same(List.of(Optional.empty(), Optional.empty(), Optional.of(c)), List.of(renewal.loader(loader), renewal.type(c), renewal.type(d)));
            same(List.of(Optional.empty(), Optional.of(plain)), List.of(renewal.callSite(plain), renewal.callSite(guarded)));
            same(List.of(Optional.of(point), Optional.of(world.site)), List.of(renewal.point(point), renewal.site(world.site)));
            same(Optional.of(table(world, d)), linker.linkOf(world.site));
            try (Linker fresh = renewal.linker()) {
                same(Optional.of(table(world, c)), fresh.linkOf(world.site));
                same(List.of(runs(d), runs(c)), List.of(linker.call(world.site, d), fresh.call(world.site, c)));
                // It goes on by itself.
                same(d, fresh.define(withF("E", "A")));
                same(List.of(world.site), fresh.dropped());
            }
        }
    }

    /** A renewing of the linker, with all that it has. */
    private static Renewing filled(Linker linker, int maxSites, Released released) {
        Renewing renewing = linker.beginRenewal(maxSites, released);
        renewing.take(Long.MAX_VALUE);
        renewing.fill();
        return renewing;
    }

    private static void renewingsAreRefusedByName() throws Exception {
        try (World world = World.open()) {
            Linker linker = world.linker;
            refused(Refusal.Plain.MALFORMED, () -> linker.beginRenewal(0, Released.NOTHING));
            refused(Refusal.Plain.MALFORMED, () -> linker.beginRenewal(1_048_577, Released.NOTHING));
            try (Renewing renewing = filled(linker, 1, Released.NOTHING)) {
                refused(Refusal.Plain.MALFORMED, () -> renewing.take(-1));
                linker.request(world.m, 0, 3);
                same(0L, renewing.take(1));
                refused(Refusal.Plain.SITES_FULL, renewing::fill);
                refused(Refusal.Plain.SITES_FULL, renewing::finish);
            }
            Target method = new Target.Method(world.m, 1);
            CallSiteId plain = linker.newCallSite(CallSiteKind.MUTABLE, "()V", method);
            Renewing renewing = filled(linker, 2, new Released(List.of(plain), List.of()));
            linker.setTarget(plain, method);
            refused(new Refusal.NamesReleased(plain.number(), 8), renewing::finish);
            renewing.close();
            refused(Refusal.Plain.CLOSED, renewing::fill);
        }
    }

    private static void aRenewingBelongsToItsThread() throws Exception {
        try (World world = World.open(); Renewing renewing = world.linker.beginRenewal(1, Released.NOTHING)) {
            same(WrongThreadException.class, thrownBy(renewing::fill));
            same(WrongThreadException.class, thrownBy(renewing::close));
        }
    }

    /** Each call is answered alike by both linkers, under the new ids. */
    private static void sameCalls(World world, Renewal renewal, int classes) {
        try (Linker fresh = renewal.linker()) {
            for (int number = 0; number < classes; number++) {
                ClassId type = new ClassId(number);
                same(Optional.of(type), renewal.type(type));
                same(world.linker.call(world.site, type), fresh.call(world.site, type));
            }
            same(true, fresh.linkOf(world.site).isPresent());
            same(world.linker.linkOf(world.site), fresh.linkOf(world.site));
        }
    }

    private static void aThreadFillsWhileOthersDefine() throws Exception {
        try (World world = World.open(); Renewing renewing = world.linker.beginRenewal(100, Released.NOTHING)) {
            List<CompletableFuture<Void>> definers = IntStream.range(0, 6).mapToObj(i -> CompletableFuture.runAsync(() -> {
                synchronized (world.linker) {
                    world.linker.define(withF("C" + i, "A"));
                    world.linker.install(List.of(world.site));
                }
            })).toList();
            while (renewing.take(3) > 0) {
                renewing.fill();
            }
            renewing.fill();
            definers.forEach(CompletableFuture::join);
            sameCalls(world, renewing.finish(), 10);
        }
    }

    private static void aCommandIsAnsweredAsText() {
        try (World world = World.open()) {
            same("{\"links\":[[0,{\"direct\":{\"run\":[1,0]}}]]}", world.linker.answer("{\"do\":\"links\"}"));
            same("{\"error\":\"BadCommand\"}", world.linker.answer(""));
        }
    }

    /** Nine classes below A that override f, by which the link of A.f is megamorphic. */
    private static List<ClassId> manyReceivers(World world) {
        List<ClassId> late = new ArrayList<>();
        for (int i = 0; i < 9; i++) {
            late.add(world.linker.define(withF("C" + i, "A")));
        }
        world.linker.install(List.of(world.site));
        same(Optional.of(new Link.Megamorphic()), world.linker.linkOf(world.site));
        return late;
    }

    private static void aMemoRemembersMegamorphicCalls() {
        try (World world = World.open(); Memo memo = world.linker.memo(64)) {
            List<ClassId> late = manyReceivers(world);
            try (Seat seat = world.linker.seat()) {
                for (ClassId type : late) {
                    same(Optional.empty(), seat.callWith(memo, world.site, type));
                    same(runs(type), memo.ask(world.site, type));
                    same(Optional.of(runs(type)), seat.callWith(memo, world.site, type));
                    same(Optional.of(runs(type)), memo.call(world.site, type));
                }
                same(Optional.empty(), seat.call(world.site, late.get(0)));
                same(Optional.empty(), memo.call(world.site, world.a));
                Answer.Throws onNull = new Answer.Throws(Answer.Error.NULL_POINTER_EXCEPTION);
                same(onNull, memo.ask(world.site));
                same(Optional.of(onNull), seat.callWith(memo, world.site));
            }
        }
    }

    private static void aMemoOfAnotherLinkerSaysNothing() {
        try (World world = World.open(); World other = World.open()) {
            ClassId late = manyReceivers(world).get(0);
            same(late, manyReceivers(other).get(0));
            try (Seat seat = world.linker.seat(); Memo memo = other.linker.memo(64)) {
                same(runs(late), memo.ask(other.site, late));
                same(Optional.of(runs(late)), memo.call(other.site, late));
                same(Optional.empty(), seat.callWith(memo, world.site, late));
            }
        }
    }

    private static void memosAreRefusedByName() throws Exception {
        World world = World.open();
        refused(Refusal.Plain.MALFORMED, () -> world.linker.memo(0));
        refused(Refusal.Plain.MALFORMED, () -> world.linker.memo(-1));
        Memo memo = world.linker.memo(1);
        world.close();
        refused(Refusal.Plain.CLOSED, () -> memo.ask(world.site));
        same(Optional.empty(), memo.call(world.site, world.a));
        memo.close();
        memo.close();
        refused(Refusal.Plain.CLOSED, () -> memo.call(world.site, world.a));
    }

    private static void aMemoBelongsToItsThread() throws Exception {
        try (World world = World.open(); Memo memo = world.linker.memo(1)) {
            same(WrongThreadException.class, thrownBy(() -> memo.ask(world.site)));
            same(WrongThreadException.class, thrownBy(memo::close));
        }
    }

    private static void aViewIsOfWhenItWasTaken() throws Exception {
        try (World world = World.open(); View view = world.linker.view()) {
            // Four definitions, a request and an install.
            same(6L, view.serial());
            ClassId c = world.linker.define(withF("C", "A"));
            same(6L, view.serial());
            same(runs(world.a), view.call(world.site, world.b));
            same(new Answer.BadReceiver(), view.call(world.site, c));
            same(new Answer.Throws(Answer.Error.NULL_POINTER_EXCEPTION), view.call(world.site));
            same(List.of(new SiteLink(world.site, new Link.Direct(runs(world.a)))), view.prepare(List.of(world.site)));

            view.take();
            same(7L, view.serial());
            same(runs(c), view.call(world.site, c));
            same(List.of(new SiteLink(world.site, table(world, c))), view.prepare(List.of(world.site)));
            // Nothing was installed.
            same(Optional.empty(), world.linker.linkOf(world.site));
        }
    }

    private static void aViewOutlivesItsLinkerAndGoesToAnotherThread() throws Exception {
        World world = World.open();
        SiteId other = world.linker.request(world.m, 0, 3);
        ClassId z = world.linker.define(withF("Z", OBJECT));
        View view = world.linker.view();
        world.close();
        List<SiteLink> prepared = CompletableFuture.supplyAsync(() -> view.prepare(List.of(other, world.site))).get();
        same(List.of(new SiteLink(other, new Link.Direct(runs(z))), new SiteLink(world.site, new Link.Direct(runs(world.a)))), prepared);
        refused(Refusal.Plain.CLOSED, view::take);
        same(runs(world.a), view.call(world.site, world.b));
        view.close();
        view.close();
        refused(Refusal.Plain.CLOSED, view::serial);
        refused(Refusal.Plain.CLOSED, () -> view.call(world.site));
        refused(Refusal.Plain.CLOSED, () -> view.prepare(List.of(world.site)));
    }

    /** Prepares the site's link in a view without the linker's monitor, and installs it, again where it is stale then. How often it was. */
    private static int compile(World world) {
        for (int stale = 0;; stale++) {
            List<SiteLink> links;
            try (View view = world.linker.view()) {
                links = view.prepare(List.of(world.site));
            }
            try {
                world.linker.installLinks(links);
                return stale;
            } catch (RefusedException refused) {
                same(Refusal.Stale.class, refused.refusal().getClass());
            }
        }
    }

    private static void threadsCompileInViewsWhileAnotherDefines() throws Exception {
        try (World world = World.open()) {
            List<CompletableFuture<Void>> compilers = new ArrayList<>();
            for (int i = 0; i < 2; i++) {
                compilers.add(CompletableFuture.runAsync(() -> IntStream.range(0, 200).forEach(turn -> compile(world))));
            }
            ClassId c = world.linker.define(withF("C", "A"));
            for (CompletableFuture<Void> compiler : compilers) {
                compiler.get();
            }
            same(0, compile(world));
            same(Optional.of(table(world, c)), world.linker.linkOf(world.site));
        }
    }

    private static void preparationsInAViewAreRefusedByName() throws Exception {
        try (World world = World.open()) {
            SiteId pending = world.linker.request(world.m, 0, 3);
            SiteId unknown = new SiteId(9);
            try (View view = world.linker.view()) {
                refused(Refusal.Plain.BATCH_SIZE, () -> view.prepare(List.of()));
                refused(Refusal.Plain.BATCH_SIZE, () -> view.prepare(Collections.nCopies(257, world.site)));
                refused(new Refusal.Site(SiteFault.UNKNOWN_SITE, 9), () -> view.prepare(List.of(world.site, unknown)));
                refused(new Refusal.Site(SiteFault.REPEATED, 0), () -> view.prepare(List.of(world.site, world.site)));
                refused(new Refusal.Site(SiteFault.NOT_READY, 1), () -> view.prepare(List.of(world.site, pending)));
                same(new Answer.Unlinked(Answer.Want.NAMED_CLASS), view.call(pending));
                same(new Answer.Unlinked(Answer.Want.NO_SITE), view.call(unknown));
            }
        }
    }

    private static void anInstallOfLinksIsStaleAndThenAccepted() throws Exception {
        try (World world = World.open(); View view = world.linker.view()) {
            Linker linker = world.linker;
            List<SiteLink> prepared = view.prepare(List.of(world.site));
            linker.installLinks(prepared);
            ClassId c = linker.define(withF("C", "A"));
            Link present = table(world, c);
            refused(new Refusal.Stale(world.site, present), () -> linker.installLinks(prepared));
            same(Optional.empty(), linker.linkOf(world.site));
            linker.installLinks(List.of(new SiteLink(world.site, present)));
            same(Optional.of(present), linker.linkOf(world.site));

            // A link of another kind, or of classes that aren't there, is stale as well.
            List<Link.Row> rows = ((Link.Table) present).rows();
            List<Link> others = List.of(new Link.Table(true, rows), new Link.Direct(runs(new ClassId(65_535))),
                    new Link.Plain(runs(world.a)), new Link.Megamorphic(), new Link.Table(false, List.of()));
            for (Link other : others) {
                refused(new Refusal.Stale(world.site, present), () -> linker.installLinks(List.of(new SiteLink(world.site, other))));
            }
        }
    }

    private static void installsOfLinksAreRefusedByName() throws Exception {
        try (World world = World.open()) {
            Linker linker = world.linker;
            SiteId pending = linker.request(world.m, 0, 3);
            Link direct = new Link.Direct(runs(world.a));
            SiteLink own = new SiteLink(world.site, direct);
            SiteLink unknown = new SiteLink(new SiteId(9), direct);
            refused(Refusal.Plain.BATCH_SIZE, () -> linker.installLinks(List.of()));
            refused(Refusal.Plain.BATCH_SIZE, () -> linker.installLinks(Collections.nCopies(257, own)));
            refused(new Refusal.Site(SiteFault.UNKNOWN_SITE, 9), () -> linker.installLinks(List.of(own, unknown)));
            refused(new Refusal.Site(SiteFault.REPEATED, 0), () -> linker.installLinks(List.of(own, own)));
            refused(new Refusal.Site(SiteFault.NOT_READY, 1), () -> linker.installLinks(List.of(own, new SiteLink(pending, direct))));
            Link throwing = new Link.Plain(new Answer.Throws(Answer.Error.ABSTRACT_METHOD_ERROR));
            Link nine = new Link.Table(false, Collections.nCopies(9, new Link.Row(world.a, runs(world.a))));
            Link tooLarge = new Link.Direct(new Answer.Run(world.a, 65_536));
            for (Link none : List.of(throwing, nine, tooLarge)) {
                refused(Refusal.Plain.MALFORMED, () -> linker.installLinks(List.of(new SiteLink(world.site, none))));
            }
            same(Optional.of(direct), linker.linkOf(world.site));
        }
    }

    /** N, whose method x calls M.n and M.none, without an object, y nothing, and z M.n and A.f. */
    private static byte[] otherCaller() {
        Written.Call n = new Written.Call(INVOKESTATIC, "M", "n", "()V");
        Written.Call none = new Written.Call(INVOKESTATIC, "M", "none", "()V");
        Written.Method x = new Written.Method(PUBLIC_STATIC, "x", List.of(n, none));
        Written.Method y = new Written.Method(PUBLIC_STATIC, "y", List.of());
        Written.Method z = new Written.Method(PUBLIC_STATIC, "z", List.of(n, call("A", "f", "()V")));
        return Written.file("N", OBJECT, x, y, z);
    }

    private static void linksOfEachFormAreInstalledByValue() {
        try (World world = World.open()) {
            Linker linker = world.linker;
            ClassId n = linker.define(otherCaller());
            SiteId plain = linker.request(n, 0, 0);
            SiteId fault = linker.request(n, 0, 3);
            List<SiteLink> links = List.of(new SiteLink(plain, new Link.Plain(new Answer.Run(world.m, 1))),
                    new SiteLink(fault, new Link.Fault(Answer.Error.NO_SUCH_METHOD_ERROR)),
                    new SiteLink(world.site, new Link.Direct(runs(world.a))));
            try (View view = linker.view()) {
                same(links, view.prepare(List.of(plain, fault, world.site)));
            }
            linker.installLinks(links);
            for (SiteLink link : links) {
                same(Optional.of(link.link()), linker.linkOf(link.site()));
            }
            for (int i = 0; i < 7; i++) {
                linker.define(withF("C" + i, "A"));
            }
            linker.installLinks(List.of(new SiteLink(world.site, new Link.Megamorphic())));
            same(Optional.of(new Link.Megamorphic()), linker.linkOf(world.site));
        }
    }

    private static void classesAndMethodsHaveNames() {
        try (World world = World.open()) {
            Linker linker = world.linker;
            same(Optional.of(world.a), linker.lookup(LoaderId.FIRST, "A"));
            same(Optional.empty(), linker.lookup(LoaderId.FIRST, "Z"));
            LoaderId other = linker.newLoader();
            same(Optional.empty(), linker.lookup(other, "A"));
            linker.delegate(other, "A", LoaderId.FIRST);
            same(Optional.of(world.a), linker.lookup(other, "A"));
            ClassId d = linker.define(other, withF("D\u00e9\0", "A"));
            same(Optional.of(d), linker.lookup(other, "D\u00e9\0"));
            linker.retire(other);
            same(Optional.empty(), linker.lookup(other, "D\u00e9\0"));

            same(Optional.of("M"), linker.className(world.m));
            same(Optional.of("D\u00e9\0"), linker.className(d));
            same(Optional.empty(), linker.className(new ClassId(99)));
            same(Optional.of("n"), linker.methodName(world.m, 1));
            same(Optional.of("()V"), linker.methodDescriptor(world.m, 1));
            same(Optional.empty(), linker.methodName(world.m, 2));
            same(Optional.empty(), linker.methodDescriptor(new ClassId(99), 0));
        }
    }

    private static Invocation at(int method, int pc, Instruction instruction) {
        return new Invocation(method, pc, instruction);
    }

    private static void invocationsAreThoseOfTheCode() {
        try (World world = World.open()) {
            Linker linker = world.linker;
            Instruction byClass = Instruction.INVOKEVIRTUAL;
            Instruction byName = Instruction.INVOKESTATIC;
            same(INVOKESTATIC, byName.opcode());
            same(Optional.of(List.of(at(0, 0, byClass), at(0, 3, byClass), at(0, 6, byClass), at(0, 9, byClass))),
                    linker.invocations(world.m, 0));
            same(Optional.of(List.of()), linker.invocations(world.m, 1));
            same(Optional.empty(), linker.invocations(world.m, 2));

            ClassId n = linker.define(otherCaller());
            same(Optional.of(List.of(at(0, 0, byName), at(0, 3, byName), at(2, 0, byName), at(2, 3, byClass))), linker.invocations(n));
            same(Optional.of(List.of()), linker.invocations(world.b));
            same(Optional.empty(), linker.invocations(new ClassId(99)));
            same(runs(world.a), linker.call(linker.request(n, 2, 3), world.b));
        }
    }

    private static void whatIsMissingHasAName() throws Exception {
        try (World world = World.open()) {
            Linker linker = world.linker;
            same(Optional.empty(), linker.refusedName());
            refused(new Refusal.Define(DefineFault.MISSING_PARENT), () -> linker.define(withF("D", "Above")));
            same(Optional.of("Above"), linker.refusedName());
            // Bytes that are no class file are no event.
            refused(new Refusal.NoClassFile(Refusal.ClassFault.TRUNCATED, 0, 0, 0), () -> linker.define(new byte[0]));
            same(Optional.of("Above"), linker.refusedName());
            SiteId pending = linker.request(world.m, 0, 3);
            same(Optional.empty(), linker.refusedName());
            same(Optional.of("Z"), linker.awaitedClass(pending));
            same(Optional.empty(), linker.awaitedClass(world.site));
            linker.define(withF("Z", OBJECT));
            same(Optional.empty(), linker.awaitedClass(pending));
            linker.install(List.of(pending));
        }
    }

    private static void theLastEventHasItsWork() {
        try (World world = World.open()) {
            world.linker.define(withF("C", "A"));
            world.linker.install(List.of(world.site));
            // A selection for each of A, B and C.
            same(3L, world.linker.lastWork());
            world.linker.newLoader();
            same(0L, world.linker.lastWork());
        }
    }

    private static void aLinkerThatCatchesUpGoesOnAsBefore() {
        try (World world = World.open()) {
            world.linker.catchUp();
            world.linker.install(List.of(world.site));
            world.linker.catchUp();
            world.linker.catchUp();
            world.linker.define(withF("C", "A"));
            world.linker.catchUp();
            same(List.of(world.site), world.linker.dropped());
            same(Optional.empty(), world.linker.linkOf(world.site));
            world.linker.install(List.of(world.site));
            same(3L, world.linker.lastWork());
        }
    }

    private static Written.Method method(int flags, String name) {
        return new Written.Method(flags, name, List.of());
    }

    private static byte[] withG(String name, Written.Method... methods) {
        return Written.file(new Written.Parts(0x21, name, OBJECT, List.of("I"), null, List.of(methods)));
    }

    /**
     * Classes of which no code calls a method. Object has h. Of A the methods are f, the static s, the private p, an initialization method and
     * the protected r; B below it declares f, p and s, all public. The interface I has g, and C implements it.
     */
    private record Uncalled(Linker linker, ClassId object, ClassId a, ClassId b, ClassId i, ClassId c) implements AutoCloseable {
        static Uncalled open() {
            Linker linker = Linker.open(100);
            ClassId object = linker.define(Written.file(OBJECT, null, method(PUBLIC, "h")));
            ClassId a = linker.define(Written.file("A", OBJECT, method(PUBLIC, "f"), method(PUBLIC_STATIC, "s"), method(PRIVATE, "p"),
                    method(PUBLIC, "<init>"), method(PROTECTED, "r")));
            ClassId b = linker.define(Written.file("B", "A", method(PUBLIC, "f"), method(PUBLIC, "p"), method(PUBLIC, "s")));
            ClassId i = linker.define(Written.file(new Written.Parts(0x0601, "I", OBJECT, List.of(), null, List.of(method(0x0401, "g")))));
            return new Uncalled(linker, object, a, b, i, linker.define(withG("C", method(PUBLIC, "g"))));
        }

        /** A class of no package that only its package may access. */
        ClassId hidden() {
            return linker.define(Written.file(new Written.Parts(0x20, "Hidden", OBJECT, List.of(), null, List.of(method(PUBLIC, "f")))));
        }

        void resolves(ClassId from, ClassId named, String name, ClassId foundIn, int place, Resolution.Result wanted) {
            same(new Resolution(Optional.of(new Method(foundIn, place)), wanted), linker.resolve(from, named, name, "()V"));
        }

        void findsNone(ClassId named, String name, String type) {
            Resolution.Result wanted = new Resolution.Throws(Answer.Error.NO_SUCH_METHOD_ERROR);
            same(new Resolution(Optional.empty(), wanted), linker.resolve(c, named, name, type));
        }

        @Override
        public void close() {
            linker.close();
        }
    }

    private static Answer thrown(Answer.Error error) {
        return new Answer.Throws(error);
    }

    private static void aMethodIsSelectedWithoutAnInvocation() throws Exception {
        try (Uncalled world = Uncalled.open()) {
            Linker linker = world.linker;
            // 5.4.6: the method of the receiver's class that overrides, or the method itself.
            same(runs(world.a), linker.select(world.a, 0, world.a));
            same(runs(world.b), linker.select(world.a, 0, world.b));
            same(runs(world.b), linker.select(world.b, 0, world.b));
            // 6.5, invokevirtual: null.
            same(thrown(Answer.Error.NULL_POINTER_EXCEPTION), linker.select(world.a, 0));
            // A private method is the selected one, whatever is below it.
            same(new Answer.Run(world.a, 2), linker.select(world.a, 2, world.b));
            same(thrown(Answer.Error.NULL_POINTER_EXCEPTION), linker.select(world.a, 2));
            // Nothing overrides an instance initialization method (2.9.1), and a static one has no receiver.
            same(new Answer.Run(world.a, 3), linker.select(world.a, 3, world.b));
            for (ClassId receiver : List.of(world.object, world.b, world.i)) {
                same(new Answer.Run(world.a, 1), linker.select(world.a, 1, receiver));
            }
            same(new Answer.Run(world.a, 1), linker.select(world.a, 1));
            // No A: what isn't below it, and classes of which there is no object.
            ClassId bare = linker.define(Written.file(new Written.Parts(0x0421, "Bare", "A", List.of(), null, List.of())));
            for (ClassId receiver : List.of(world.object, world.c, world.i, bare)) {
                same(new Answer.BadReceiver(), linker.select(world.a, 0, receiver));
            }
            same(new Answer.BadReceiver(), linker.select(world.b, 0, world.a));
            refused(Refusal.Plain.NO_SUCH_PLACE, () -> linker.select(world.a, 5, world.a));
            refused(Refusal.Plain.NO_SUCH_PLACE, () -> linker.select(world.a, 65_536, world.a));
            refused(Refusal.Plain.NO_SUCH_PLACE, () -> linker.select(new ClassId(99), 0, world.a));
        }
    }

    private static void anInterfaceMethodIsSelectedWithoutAnInvocation() throws Exception {
        try (Uncalled world = Uncalled.open()) {
            Linker linker = world.linker;
            same(runs(world.c), linker.select(world.i, 0, world.c));
            same(new Answer.BadReceiver(), linker.select(world.i, 0, world.a));
            same(thrown(Answer.Error.NULL_POINTER_EXCEPTION), linker.select(world.i, 0));
            // 6.5, invokeinterface: none is selected, or one that is neither public nor private. A private one overrides nothing (5.4.5).
            same(thrown(Answer.Error.ABSTRACT_METHOD_ERROR), linker.select(world.i, 0, linker.define(withG("Lacking"))));
            ClassId hiding = linker.define(withG("Hiding", method(PRIVATE, "g")));
            same(thrown(Answer.Error.ABSTRACT_METHOD_ERROR), linker.select(world.i, 0, hiding));
            ClassId narrow = linker.define(withG("Narrow", method(0, "g")));
            same(thrown(Answer.Error.ILLEGAL_ACCESS_ERROR), linker.select(world.i, 0, narrow));
            // A method of the class that implements I is called as any other.
            same(runs(narrow), linker.select(narrow, 0, narrow));

            LoaderId other = linker.newLoader();
            linker.delegate(other, "A", LoaderId.FIRST);
            ClassId d = linker.define(other, withF("D", "A"));
            same(runs(d), linker.select(world.a, 0, d));
            linker.retire(other);
            same(new Answer.BadReceiver(), linker.select(world.a, 0, d));
            refused(Refusal.Plain.NO_SUCH_PLACE, () -> linker.select(d, 0, world.a));
        }
    }

    private static void aReferenceIsResolvedWithoutAnInvocation() throws Exception {
        try (Uncalled world = Uncalled.open()) {
            Linker linker = world.linker;
            Resolution.Result resolved = new Resolution.Resolved();
            Resolution.Result illegal = new Resolution.Throws(Answer.Error.ILLEGAL_ACCESS_ERROR);
            // 5.4.3.3: in the class, in a superclass, in a superinterface.
            world.resolves(world.c, world.b, "f", world.b, 0, resolved);
            world.resolves(world.c, world.b, "h", world.object, 0, resolved);
            world.resolves(world.c, linker.define(withG("Lacking")), "g", world.i, 0, resolved);
            world.resolves(world.c, world.a, "s", world.a, 1, resolved);
            world.findsNone(world.a, "g", "()V");
            world.findsNone(world.a, "f", "(I)V");
            // 5.4.3.4: in the interface, and a public method of java/lang/Object.
            world.resolves(world.a, world.i, "g", world.i, 0, resolved);
            world.resolves(world.a, world.i, "h", world.object, 0, resolved);
            world.findsNone(world.i, "f", "()V");
            // 5.4.4: a private method, and a protected one, which a class below it in another package may name.
            world.resolves(world.a, world.a, "p", world.a, 2, resolved);
            world.resolves(world.c, world.a, "p", world.a, 2, illegal);
            world.resolves(world.c, world.a, "r", world.a, 4, resolved);
            ClassId below = linker.define(Written.file("q/Below", "A"));
            ClassId beside = linker.define(Written.file("q/Beside", OBJECT));
            world.resolves(below, below, "r", world.a, 4, resolved);
            world.resolves(beside, world.a, "r", world.a, 4, illegal);
            // The class that is named isn't accessible; the method would be.
            ClassId hidden = world.hidden();
            world.resolves(world.c, hidden, "f", hidden, 0, resolved);
            world.resolves(beside, hidden, "f", hidden, 0, illegal);
            // Those of a method handle are found as any.
            byte[] file = Written.file("java/lang/invoke/MethodHandle", OBJECT, method(0x0191, "invoke"), method(PUBLIC, "type"));
            ClassId handle = linker.define(file);
            world.resolves(world.a, handle, "invoke", handle, 0, resolved);
            world.resolves(world.a, handle, "type", handle, 1, resolved);
            refused(Refusal.Plain.UNKNOWN_CLASS, () -> linker.resolve(new ClassId(99), world.a, "f", "()V"));
            refused(Refusal.Plain.UNKNOWN_CLASS, () -> linker.resolve(world.a, new ClassId(99), "f", "()V"));
        }
    }

    private static void aResolutionWaitsForANestHost() {
        try (Uncalled world = Uncalled.open()) {
            Linker linker = world.linker;
            ClassId mate = linker.define(Written.file(new Written.Parts(0x21, "Mate", OBJECT, List.of(), "Host", List.of())));
            world.resolves(mate, world.a, "p", world.a, 2, new Resolution.Unlinked(Answer.Want.CALLER_HOST));
            world.resolves(mate, world.a, "f", world.a, 0, new Resolution.Resolved());
            // Host doesn't list Mate, which is the host of its own nest then (5.4.4).
            linker.define(Written.file("Host", OBJECT));
            world.resolves(mate, world.a, "p", world.a, 2, new Resolution.Throws(Answer.Error.ILLEGAL_ACCESS_ERROR));
        }
    }

    private static void aClassIsAccessibleInItsPackageOrEverywhere() throws Exception {
        try (Uncalled world = Uncalled.open()) {
            Linker linker = world.linker;
            ClassId hidden = world.hidden();
            ClassId beside = linker.define(Written.file("q/Beside", OBJECT));
            same(true, linker.classAccessible(world.a, hidden));
            same(true, linker.classAccessible(hidden, hidden));
            same(false, linker.classAccessible(beside, hidden));
            same(true, linker.classAccessible(beside, world.a));
            same(true, linker.classAccessible(hidden, world.i));
            // A class that another loader defines is in another run-time package, whatever its name is (5.3).
            LoaderId other = linker.newLoader();
            linker.delegate(other, OBJECT, LoaderId.FIRST);
            ClassId d = linker.define(other, Written.file("D", OBJECT));
            same(false, linker.classAccessible(d, hidden));
            same(true, linker.classAccessible(d, world.a));
            linker.retire(other);
            refused(Refusal.Plain.UNKNOWN_CLASS, () -> linker.classAccessible(d, world.a));
            refused(Refusal.Plain.UNKNOWN_CLASS, () -> linker.classAccessible(world.a, d));
        }
    }

    private static void bytesAreCheckedAndNotDefined() throws Exception {
        try (Linker linker = Linker.open(1)) {
            int newest = Linker.NEWEST_KNOWN;
            refused(new Refusal.NoClassFile(Refusal.ClassFault.TRUNCATED, 0, 0, 0), () -> linker.check(newest, new byte[0]));
            refused(new Refusal.NoClassFile(Refusal.ClassFault.BAD_MAGIC, 0, 0, 0), () -> linker.check(newest, "no class file".getBytes()));
            byte[] file = Written.fileOfVersion(65, "A", "Nowhere");
            refused(BAD_VERSION, () -> linker.check(Linker.NEWEST_OF_17, file));
            refused(Refusal.Plain.MALFORMED, () -> linker.check(-1, file));
            refused(Refusal.Plain.MALFORMED, () -> linker.check(65_536, file));
            // No parent is looked for, and no class is there then.
            linker.check(65, file);
            linker.check(65, file);
            same(Optional.empty(), linker.lookup(LoaderId.FIRST, "A"));
            same(new ClassId(0), linker.define(Written.file(OBJECT, null)));
        }
    }

    private static void anInvocationIsLinkedByOneCall() throws Exception {
        try (Linker linker = Linker.open(2)) {
            linker.define(Written.file(OBJECT, null));
            ClassId m = linker.define(caller());
            // M calls A.f at pc 0, and A isn't there.
            SiteId site = linker.link(m, 0, 0).site();
            Refusal notReady = new Refusal.Site(SiteFault.NOT_READY, site.number());
            same(new Linked.Pending(site, notReady), linker.link(m, 0, 0));
            same(Optional.of("A"), linker.awaitedClass(site));
            ClassId a = linker.define(withF("A", OBJECT));
            Linked linked = new Linked.Installed(site, new Link.Direct(runs(a)));
            same(linked, linker.link(m, 0, 0));
            same(linked, linker.link(m, 0, 0));
            same(Optional.of(new Link.Direct(runs(a))), linker.linkOf(site));
            // A class below A that overrides f, and the link is made anew.
            ClassId c = linker.define(withF("C", "A"));
            same(List.of(site), linker.dropped());
            List<Link.Row> rows = List.of(new Link.Row(a, runs(a)), new Link.Row(c, runs(c)));
            same(new Linked.Installed(site, new Link.Table(false, rows)), linker.link(m, 0, 0));

            // What refuses the request. Z has no f, so that each call throws NoSuchMethodError (5.4.3.3).
            refused(new Refusal.NotLinkable(Refusal.Form.ARRAY_RECEIVER), () -> linker.link(m, 0, 6));
            refused(Refusal.Plain.NO_SUCH_PLACE, () -> linker.link(m, 0, 1));
            refused(Refusal.Plain.NO_SUCH_PLACE, () -> linker.link(m, 2, 0));
            refused(Refusal.Plain.MALFORMED, () -> linker.link(m, 65_536, 0));
            refused(Refusal.Plain.UNKNOWN_CLASS, () -> linker.link(new ClassId(99), 0, 0));
            linker.define(Written.file("Z", OBJECT));
            SiteId other = linker.link(m, 0, 3).site();
            same(new Linked.Installed(other, new Link.Fault(Answer.Error.NO_SUCH_METHOD_ERROR)), linker.link(m, 0, 3));
            Written.Call call = new Written.Call(INVOKESTATIC, "M", "n", "()V");
            ClassId n = linker.define(Written.file("N", OBJECT, new Written.Method(PUBLIC_STATIC, "m", List.of(call))));
            refused(Refusal.Plain.SITES_FULL, () -> linker.link(n, 0, 0));
        }
    }

    private static void thoseOfSeveralSitesAreInstalledThatHaveALink() {
        try (World world = World.open()) {
            Linker linker = world.linker;
            SiteId site = world.site;
            ClassId n = linker.define(otherCaller());
            // M calls A.f and Z.f, and Z isn't there. N calls M.n, which is static.
            SiteId waits = linker.request(world.m, 0, 3);
            SiteId plain = linker.request(n, 0, 0);
            Link method = new Link.Plain(new Answer.Run(world.m, 1));
            Map<SiteId, Link> links = linker.installReady(List.of(plain, waits, site));
            same(Map.of(site, new Link.Direct(runs(world.a)), plain, method), links);
            same(List.of(plain, site), List.copyOf(links.keySet()));
            same(Optional.of(method), linker.linkOf(plain));
            same(Optional.empty(), linker.linkOf(waits));
            same(List.of(), linker.dropped());

            // C overrides f, which drops one of them. Z has no f, so that each call throws NoSuchMethodError (5.4.3.3).
            Link table = table(world, linker.define(withF("C", "A")));
            same(List.of(site), linker.dropped());
            same(Map.of(site, table, plain, method), linker.installReady(List.of(site, waits, plain)));
            same(List.of(), linker.dropped());
            linker.define(Written.file("Z", OBJECT));
            Link fault = new Link.Fault(Answer.Error.NO_SUCH_METHOD_ERROR);
            same(Map.of(site, table, waits, fault), linker.installReady(List.of(site, waits)));
            same(Optional.of(fault), linker.linkOf(waits));
            same(Optional.of(method), linker.linkOf(plain));
        }
    }

    private static long serial(Linker linker) {
        try (View view = linker.view()) {
            return view.serial();
        }
    }

    private static void sitesWithoutALinkArePassedOver() {
        try (World world = World.open()) {
            Linker linker = world.linker;
            SiteId site = world.site;
            Link table = table(world, linker.define(withF("C", "A")));
            SiteId waits = linker.request(world.m, 0, 3);
            // Another loader's class, which calls A.f, goes with its loader.
            LoaderId other = linker.newLoader();
            linker.delegate(other, OBJECT, LoaderId.FIRST);
            linker.delegate(other, "A", LoaderId.FIRST);
            Written.Method calls = new Written.Method(PUBLIC_STATIC, "d", List.of(call("A", "f", "()V")));
            SiteId gone = linker.request(linker.define(other, Written.file("D", OBJECT, calls)), 0, 0);
            same(Map.of(gone, table), linker.installReady(List.of(gone)));
            linker.retire(other);
            SiteId unknown = new SiteId(9);

            linker.installReady(List.of(waits, site));
            // A selection for each of A, B and C.
            same(3L, linker.lastWork());
            long serial = serial(linker);
            same(Map.of(), linker.installReady(List.of()));
            same(Map.of(), linker.installReady(List.of(unknown, waits, gone, waits, unknown)));
            same(Map.of(), linker.installReady(Collections.nCopies(257, waits)));
            // There was no event.
            same(3L, linker.lastWork());
            same(serial, serial(linker));
            same(Map.of(site, table), linker.installReady(List.of(unknown, site, unknown)));
            same(serial + 1, serial(linker));
        }
    }

    private static void installsOfSitesThatHaveALinkAreRefusedByName() throws Exception {
        try (Linker linker = Linker.open(258)) {
            linker.define(Written.file(OBJECT, null));
            ClassId m = linker.define(caller());
            // N calls M.n 257 times, and then Z.n, and Z isn't there.
            List<Written.Call> calls = new ArrayList<>(Collections.nCopies(257, new Written.Call(INVOKESTATIC, "M", "n", "()V")));
            calls.add(new Written.Call(INVOKESTATIC, "Z", "n", "()V"));
            ClassId n = linker.define(Written.file("N", OBJECT, new Written.Method(PUBLIC_STATIC, "x", calls)));
            List<SiteId> sites = IntStream.range(0, 258).mapToObj(call -> linker.request(n, 0, 3 * call)).toList();
            SiteId first = sites.get(0);
            SiteId second = sites.get(1);
            SiteId waits = sites.get(257);
            refused(Refusal.Plain.BATCH_SIZE, () -> linker.installReady(sites));
            refused(Refusal.Plain.BATCH_SIZE, () -> linker.installReady(Collections.nCopies(257, first)));
            refused(new Refusal.Site(SiteFault.REPEATED, second.number()),
                    () -> linker.installReady(List.of(waits, first, second, waits, second)));
            sites.forEach(site -> same(Optional.empty(), linker.linkOf(site)));
            Link plain = new Link.Plain(new Answer.Run(m, 1));
            Map<SiteId, Link> links = linker.installReady(sites.subList(1, 258));
            same(sites.subList(1, 257), List.copyOf(links.keySet()));
            links.values().forEach(link -> same(plain, link));
            same(Optional.empty(), linker.linkOf(first));
            same(Optional.of(plain), linker.linkOf(second));
        }
    }

    private static void classesOfThisJdkAreDefined() throws Exception {
        byte[] file = ClassFiles.of(OBJECT).orElseThrow();
        // Magic number, minor version, major version (JVMS SE 25 §4.1).
        int major = Runtime.version().feature() + 44;
        same(List.of(0xcafebabe, major), List.of(ByteBuffer.wrap(file).getInt(), ByteBuffer.wrap(file).getInt(4)));
        same(Optional.empty(), ClassFiles.of("no/such/Class"));
        try (Linker linker = Linker.open(1)) {
            refused(BAD_VERSION, () -> linker.define(file));
            same(Optional.of(OBJECT), linker.className(linker.defineUpTo(LoaderId.FIRST, Linker.NEWEST_KNOWN, file)));
        }
    }

    private static void aClosedLinkerRefusesAll() throws Exception {
        World world = World.open();
        Linker linker = world.linker;
        linker.close();
        linker.close();
        refused(Refusal.Plain.CLOSED, linker::newLoader);
        refused(Refusal.Plain.CLOSED, () -> linker.define(new byte[0]));
        refused(Refusal.Plain.CLOSED, () -> linker.defineUpTo(LoaderId.FIRST, Linker.NEWEST_KNOWN, new byte[0]));
        refused(Refusal.Plain.CLOSED, () -> linker.delegate(LoaderId.FIRST, "A", LoaderId.FIRST));
        refused(Refusal.Plain.CLOSED, () -> linker.request(world.m, 0, 0));
        refused(Refusal.Plain.CLOSED, () -> linker.install(List.of(world.site)));
        refused(Refusal.Plain.CLOSED, linker::dropped);
        refused(Refusal.Plain.CLOSED, () -> linker.call(world.site));
        refused(Refusal.Plain.CLOSED, () -> linker.linkOf(world.site));
        refused(Refusal.Plain.CLOSED, () -> linker.answer("{}"));
        refused(Refusal.Plain.CLOSED, linker::seat);
        refused(Refusal.Plain.CLOSED, linker::view);
        refused(Refusal.Plain.CLOSED, () -> linker.memo(1).ask(world.site));
        refused(Refusal.Plain.CLOSED, () -> linker.installLinks(List.of()));
        refused(Refusal.Plain.CLOSED, () -> linker.lookup(LoaderId.FIRST, "A"));
        refused(Refusal.Plain.CLOSED, () -> linker.className(world.a));
        refused(Refusal.Plain.CLOSED, () -> linker.methodName(world.a, 0));
        refused(Refusal.Plain.CLOSED, () -> linker.methodDescriptor(world.a, 0));
        refused(Refusal.Plain.CLOSED, () -> linker.invocations(world.a));
        refused(Refusal.Plain.CLOSED, () -> linker.invocations(world.a, 0));
        refused(Refusal.Plain.CLOSED, linker::refusedName);
        refused(Refusal.Plain.CLOSED, () -> linker.awaitedClass(world.site));
        refused(Refusal.Plain.CLOSED, () -> linker.select(world.a, 0));
        refused(Refusal.Plain.CLOSED, () -> linker.resolve(world.a, world.a, "f", "()V"));
        refused(Refusal.Plain.CLOSED, () -> linker.classAccessible(world.a, world.a));
        refused(Refusal.Plain.CLOSED, () -> linker.check(Linker.NEWEST_OF_17, new byte[0]));
        refused(Refusal.Plain.CLOSED, () -> linker.installReady(List.of()));
        refused(Refusal.Plain.CLOSED, () -> linker.link(world.m, 0, 0));
        refused(Refusal.Plain.CLOSED, linker::lastWork);
        refused(Refusal.Plain.CLOSED, linker::catchUp);
        refused(Refusal.Plain.CLOSED, () -> linker.renew(1, Released.NOTHING));
        refused(Refusal.Plain.CLOSED, () -> linker.beginRenewal(1, Released.NOTHING));
    }

    private static boolean passes(String name, Test test) {
        try {
            test.run();
            System.out.println(name + ": ok");
            return true;
        } catch (Exception | AssertionError fault) {
            System.out.println(name + ": FAILED");
            fault.printStackTrace(System.out);
            return false;
        }
    }

    public static void main(String[] words) {
        boolean all = passes("a class that overrides drops the link", Tests::aClassThatOverridesDropsTheLink)
                & passes("a seat answers by its last refresh", Tests::aSeatAnswersByItsLastRefresh)
                & passes("a seat belongs to its thread", Tests::aSeatBelongsToItsThread)
                & passes("threads share a linker", Tests::threadsShareALinker)
                & passes("bad files are refused by name", Tests::badFilesAreRefusedByName)
                & passes("later files are defined up to a version", Tests::laterFilesAreDefinedUpToAVersion)
                & passes("definitions are refused by name", Tests::definitionsAreRefusedByName)
                & passes("loaders that record each other go at once", Tests::loadersThatRecordEachOtherGoAtOnce)
                & passes("call sites go before the loader that they hold", Tests::callSitesGoBeforeTheLoaderThatTheyHold)
                & passes("sites are refused by name", Tests::sitesAreRefusedByName)
                & passes("a linker has limits of its own", Tests::aLinkerHasLimitsOfItsOwn)
                & passes("a call site has targets", Tests::aCallSiteHasTargets)
                & passes("a fresh linker has what stays", Tests::aFreshLinkerHasWhatStays)
                & passes("a renewing goes on beside its linker", Tests::aRenewingGoesOnBesideItsLinker)
                & passes("renewings are refused by name", Tests::renewingsAreRefusedByName)
                & passes("a renewing belongs to its thread", Tests::aRenewingBelongsToItsThread)
                & passes("a thread fills while others define", Tests::aThreadFillsWhileOthersDefine)
                & passes("a command is answered as text", Tests::aCommandIsAnsweredAsText)
                & passes("a memo remembers megamorphic calls", Tests::aMemoRemembersMegamorphicCalls)
                & passes("a memo of another linker says nothing", Tests::aMemoOfAnotherLinkerSaysNothing)
                & passes("memos are refused by name", Tests::memosAreRefusedByName)
                & passes("a memo belongs to its thread", Tests::aMemoBelongsToItsThread)
                & passes("a view is of when it was taken", Tests::aViewIsOfWhenItWasTaken)
                & passes("a view outlives its linker and goes to another thread", Tests::aViewOutlivesItsLinkerAndGoesToAnotherThread)
                & passes("threads compile in views while another defines", Tests::threadsCompileInViewsWhileAnotherDefines)
                & passes("preparations in a view are refused by name", Tests::preparationsInAViewAreRefusedByName)
                & passes("an install of links is stale and then accepted", Tests::anInstallOfLinksIsStaleAndThenAccepted)
                & passes("installs of links are refused by name", Tests::installsOfLinksAreRefusedByName)
                & passes("links of each form are installed by value", Tests::linksOfEachFormAreInstalledByValue)
                & passes("classes and methods have names", Tests::classesAndMethodsHaveNames)
                & passes("invocations are those of the code", Tests::invocationsAreThoseOfTheCode)
                & passes("what is missing has a name", Tests::whatIsMissingHasAName)
                & passes("the last event has its work", Tests::theLastEventHasItsWork)
                & passes("a linker that catches up goes on as before", Tests::aLinkerThatCatchesUpGoesOnAsBefore)
                & passes("a method is selected without an invocation", Tests::aMethodIsSelectedWithoutAnInvocation)
                & passes("an interface method is selected without an invocation", Tests::anInterfaceMethodIsSelectedWithoutAnInvocation)
                & passes("a reference is resolved without an invocation", Tests::aReferenceIsResolvedWithoutAnInvocation)
                & passes("a resolution waits for a nest host", Tests::aResolutionWaitsForANestHost)
                & passes("a class is accessible in its package or everywhere", Tests::aClassIsAccessibleInItsPackageOrEverywhere)
                & passes("bytes are checked and not defined", Tests::bytesAreCheckedAndNotDefined)
                & passes("an invocation is linked by one call", Tests::anInvocationIsLinkedByOneCall)
                & passes("those of several sites are installed that have a link", Tests::thoseOfSeveralSitesAreInstalledThatHaveALink)
                & passes("sites without a link are passed over", Tests::sitesWithoutALinkArePassedOver)
                & passes("installs of sites that have a link are refused by name", Tests::installsOfSitesThatHaveALinkAreRefusedByName)
                & passes("classes of this JDK are defined", Tests::classesOfThisJdkAreDefined)
                & passes("a closed linker refuses all", Tests::aClosedLinkerRefusesAll);
        System.exit(all ? 0 : 1);
    }
}
