package linkd;

import static java.lang.foreign.ValueLayout.ADDRESS;
import static java.lang.foreign.ValueLayout.JAVA_CHAR;
import static java.lang.foreign.ValueLayout.JAVA_INT;
import static java.lang.foreign.ValueLayout.JAVA_LONG;

import java.lang.foreign.Arena;
import java.lang.foreign.FunctionDescriptor;
import java.lang.foreign.MemoryLayout;
import java.lang.foreign.MemorySegment;
import java.lang.foreign.SymbolLookup;
import java.lang.invoke.MethodHandle;

/** The calls of include/linkd.h, of the version that {@link Library} asks for. Nothing compares these declarations but the tests. */
final class Native {
    /** The statuses that are looked at apart from refusals. */
    static final int DONE = 0;
    static final int STALE = 10;
    static final int TOO_SHORT = 36;

    /** No link is of this kind: in an out place that is so, none was written. */
    static final int UNWRITTEN = -1;

    /** The null reference, as a receiver. */
    static final int NULL = -1;

    /** The new number of what is gone. */
    static final int NO_NUMBER = -1;

    /** How many numbers a linkd_told, a linkd_call_answer, a linkd_resolution, a linkd_link, a linkd_link_row and a linkd_invocation are. */
    static final int TOLD = 6;
    static final int ANSWER = 3;
    static final int RESOLUTION = 4;
    static final int MOST_ROWS = 8;
    static final int LINK = 2 + MOST_ROWS * 4;
    static final int LINK_ROW = 1 + LINK;
    /** The bytes of a part of a target. */
    private static final long TARGET_PART = 3 * JAVA_INT.byteSize();
    static final int INVOCATION = 2;
    /** How many numbers a linkd_count is. */
    static final int COUNTS = 5;

    private static final SymbolLookup LIBRARY = Library.open();

    private static final MethodHandle SIZE = handle("linkd_size", FunctionDescriptor.of(JAVA_LONG));
    private static final MethodHandle ALIGN = handle("linkd_align", FunctionDescriptor.of(JAVA_LONG));
    private static final MethodHandle SEAT_SIZE = handle("linkd_seat_size", FunctionDescriptor.of(JAVA_LONG));
    private static final MethodHandle SEAT_ALIGN = handle("linkd_seat_align", FunctionDescriptor.of(JAVA_LONG));
    private static final MethodHandle MEMO_SIZE = handle("linkd_memo_size", FunctionDescriptor.of(JAVA_LONG));
    private static final MethodHandle MEMO_ALIGN = handle("linkd_memo_align", FunctionDescriptor.of(JAVA_LONG));
    private static final MethodHandle VIEW_SIZE = handle("linkd_view_size", FunctionDescriptor.of(JAVA_LONG));
    private static final MethodHandle VIEW_ALIGN = handle("linkd_view_align", FunctionDescriptor.of(JAVA_LONG));
    private static final MethodHandle RENEWAL_SIZE = handle("linkd_renewal_size", FunctionDescriptor.of(JAVA_LONG));
    private static final MethodHandle RENEWAL_ALIGN = handle("linkd_renewal_align", FunctionDescriptor.of(JAVA_LONG));
    private static final MethodHandle BLANK = handle("linkd_blank", FunctionDescriptor.ofVoid(ADDRESS));
    private static final MethodHandle CLOSE = handle("linkd_close", FunctionDescriptor.ofVoid(ADDRESS));
    private static final MethodHandle SEAT_BLANK = handle("linkd_seat_blank", FunctionDescriptor.ofVoid(ADDRESS));
    private static final MethodHandle SEAT_LEAVE = handle("linkd_seat_leave", FunctionDescriptor.ofVoid(ADDRESS));
    private static final MethodHandle MEMO_BLANK = handle("linkd_memo_blank", FunctionDescriptor.ofVoid(ADDRESS));
    private static final MethodHandle MEMO_CLOSE = handle("linkd_memo_close", FunctionDescriptor.ofVoid(ADDRESS));
    private static final MethodHandle VIEW_BLANK = handle("linkd_view_blank", FunctionDescriptor.ofVoid(ADDRESS));
    private static final MethodHandle VIEW_LEAVE = handle("linkd_view_leave", FunctionDescriptor.ofVoid(ADDRESS));
    private static final MethodHandle RENEWAL_BLANK = handle("linkd_renewal_blank", FunctionDescriptor.ofVoid(ADDRESS));
    private static final MethodHandle RENEWAL_LEAVE = handle("linkd_renewal_leave", FunctionDescriptor.ofVoid(ADDRESS));
    private static final MethodHandle OPEN = status("linkd_open", JAVA_INT);
    private static final MethodHandle OPEN_WITH = status("linkd_open_with", JAVA_INT, JAVA_INT, JAVA_INT, JAVA_INT, JAVA_INT);
    private static final MethodHandle NEW_LOADER = status("linkd_new_loader", ADDRESS);
    private static final MethodHandle DEFINE = status("linkd_define", JAVA_INT, ADDRESS, JAVA_LONG, ADDRESS);
    private static final MethodHandle DEFINE_UP_TO = status("linkd_define_up_to", JAVA_INT, JAVA_CHAR, ADDRESS, JAVA_LONG, ADDRESS);
    private static final MethodHandle DELEGATE = status("linkd_delegate", JAVA_INT, ADDRESS, JAVA_LONG, JAVA_INT, ADDRESS);
    private static final MethodHandle REQUEST = status("linkd_request", JAVA_INT, JAVA_INT, JAVA_INT, ADDRESS);
    private static final MethodHandle NEW_CALL_SITE =
            status("linkd_new_call_site_of", JAVA_INT, ADDRESS, JAVA_LONG, ADDRESS, JAVA_LONG, ADDRESS);
    private static final MethodHandle SET_TARGET = status("linkd_set_target_of", JAVA_INT, ADDRESS, JAVA_LONG, ADDRESS);
    private static final MethodHandle NEW_SWITCH = status("linkd_new_switch", ADDRESS);
    private static final MethodHandle INVALIDATE = status("linkd_invalidate", ADDRESS, JAVA_LONG, ADDRESS);
    private static final MethodHandle BIND = status("linkd_bind", JAVA_INT, JAVA_INT, ADDRESS);
    private static final MethodHandle RETIRE = status("linkd_retire", JAVA_INT, ADDRESS);
    private static final MethodHandle RETIRE_ALL = status("linkd_retire_all", ADDRESS, JAVA_LONG, ADDRESS);
    private static final MethodHandle RELEASE = status("linkd_release", ADDRESS, JAVA_LONG, ADDRESS, JAVA_LONG, ADDRESS);
    private static final MethodHandle INSTALL = status("linkd_install", ADDRESS, JAVA_LONG, ADDRESS);
    private static final MethodHandle INSTALL_LINKS = status("linkd_install_links", ADDRESS, JAVA_LONG, ADDRESS, ADDRESS);
    private static final MethodHandle DROPPED = status("linkd_dropped", ADDRESS, JAVA_LONG, ADDRESS);
    private static final MethodHandle CALL = status("linkd_call", JAVA_INT, JAVA_INT, ADDRESS);
    private static final MethodHandle LINK_OF = status("linkd_link_of", JAVA_INT, ADDRESS);
    private static final MethodHandle LINK_PLACE = status("linkd_link_place", JAVA_INT, JAVA_INT, JAVA_INT, ADDRESS, ADDRESS);
    private static final MethodHandle INSTALL_READY = status("linkd_install_ready", ADDRESS, JAVA_LONG, ADDRESS, JAVA_LONG, ADDRESS);
    private static final MethodHandle CHECK = status("linkd_check", JAVA_CHAR, ADDRESS, JAVA_LONG, ADDRESS);
    private static final MethodHandle SELECT = status("linkd_select", JAVA_INT, JAVA_INT, JAVA_INT, ADDRESS);
    private static final MethodHandle RESOLVE =
            status("linkd_resolve", JAVA_INT, JAVA_INT, ADDRESS, JAVA_LONG, ADDRESS, JAVA_LONG, ADDRESS);
    private static final MethodHandle CLASS_ACCESSIBLE = status("linkd_class_accessible", JAVA_INT, JAVA_INT, ADDRESS);
    private static final MethodHandle LOOKUP = status("linkd_lookup", JAVA_INT, ADDRESS, JAVA_LONG, ADDRESS);
    private static final MethodHandle CLASS_NAME = status("linkd_class_name", JAVA_INT, ADDRESS, JAVA_LONG, ADDRESS);
    private static final MethodHandle METHOD_NAME = status("linkd_method_name", JAVA_INT, JAVA_INT, ADDRESS, JAVA_LONG, ADDRESS);
    private static final MethodHandle METHOD_TYPE = status("linkd_method_type", JAVA_INT, JAVA_INT, ADDRESS, JAVA_LONG, ADDRESS);
    private static final MethodHandle INVOCATIONS = status("linkd_invocations", JAVA_INT, JAVA_INT, ADDRESS, JAVA_LONG, ADDRESS);
    private static final MethodHandle NAMED = status("linkd_refused_name", ADDRESS, JAVA_LONG, ADDRESS);
    private static final MethodHandle AWAITED = status("linkd_awaited", JAVA_INT, ADDRESS, JAVA_LONG, ADDRESS);
    private static final MethodHandle LAST_WORK = status("linkd_last_work", ADDRESS);
    private static final MethodHandle CATCH_UP = status("linkd_catch_up");
    private static final MethodHandle COUNT = status("linkd_counts", ADDRESS);
    private static final MethodHandle RENEW = status("linkd_renew_into", ADDRESS, JAVA_INT, ADDRESS, JAVA_LONG, ADDRESS, JAVA_LONG,
            ADDRESS, JAVA_LONG, ADDRESS, JAVA_LONG, ADDRESS, JAVA_LONG, ADDRESS, JAVA_LONG, ADDRESS, JAVA_LONG);
    private static final MethodHandle OBEY = status("linkd_answer", ADDRESS, JAVA_LONG, ADDRESS);
    private static final MethodHandle TAKE = status("linkd_take", ADDRESS, JAVA_LONG, ADDRESS);
    private static final MethodHandle SEAT_REFRESH = status("linkd_seat_refresh", ADDRESS);
    private static final MethodHandle SEAT_ANSWER =
            handle("linkd_seat_answer", FunctionDescriptor.of(JAVA_LONG, ADDRESS, JAVA_INT, JAVA_INT));
    private static final MethodHandle SEAT_CALL_WITH = status("linkd_seat_call_with", ADDRESS, JAVA_INT, JAVA_INT, ADDRESS);
    private static final MethodHandle MEMO_OPEN = status("linkd_memo_open", JAVA_INT);
    private static final MethodHandle MEMO_ASK = status("linkd_memo_ask", ADDRESS, JAVA_INT, JAVA_INT, ADDRESS);
    private static final MethodHandle MEMO_CALL = status("linkd_memo_call", JAVA_INT, JAVA_INT, ADDRESS);
    private static final MethodHandle VIEW_TAKE = status("linkd_view_take", ADDRESS);
    private static final MethodHandle VIEW_SERIAL = status("linkd_view_serial", ADDRESS);
    private static final MethodHandle VIEW_CALL = status("linkd_view_call", JAVA_INT, JAVA_INT, ADDRESS);
    private static final MethodHandle VIEW_PREPARE = status("linkd_view_prepare", ADDRESS, JAVA_LONG, ADDRESS, JAVA_LONG, ADDRESS);
    private static final MethodHandle RENEWAL_BEGIN =
            status("linkd_renewal_begin_with", ADDRESS, JAVA_INT, ADDRESS, JAVA_LONG, ADDRESS, JAVA_LONG);
    private static final MethodHandle RENEWAL_TAKE = status("linkd_renewal_take", ADDRESS, JAVA_LONG, ADDRESS);
    private static final MethodHandle RENEWAL_FILL = status("linkd_renewal_fill", ADDRESS);
    private static final MethodHandle RENEWAL_FINISH = status("linkd_renewal_finish_into", ADDRESS, ADDRESS, ADDRESS, ADDRESS, JAVA_LONG,
            ADDRESS, JAVA_LONG, ADDRESS, JAVA_LONG, ADDRESS, JAVA_LONG, ADDRESS, JAVA_LONG);

    private Native() {
    }

    @SuppressWarnings("restricted")
    private static MethodHandle handle(String name, FunctionDescriptor type) {
        MemorySegment function = LIBRARY.find(name).orElseThrow(() -> new MissingLibraryException("the library has no " + name));
        return java.lang.foreign.Linker.nativeLinker().downcallHandle(function, type);
    }

    /** A call on a linker, a seat, a memo, a view or a renewal that answers a status. */
    private static MethodHandle status(String name, MemoryLayout... rest) {
        return handle(name, FunctionDescriptor.of(JAVA_INT, ADDRESS).appendArgumentLayouts(rest));
    }

    /** No call of C throws. */
    private static AssertionError failed(Throwable fault) {
        return new AssertionError("a call of C has thrown", fault);
    }

    private static MemorySegment block(Arena arena, MethodHandle size, MethodHandle align) {
        try {
            return arena.allocate((long) size.invokeExact(), (long) align.invokeExact());
        } catch (Throwable fault) {
            throw failed(fault);
        }
    }

    private static void call(MethodHandle handle, MemorySegment at) {
        try {
            handle.invokeExact(at);
        } catch (Throwable fault) {
            throw failed(fault);
        }
    }

    /** A blank linker. */
    static MemorySegment linker(Arena arena) {
        MemorySegment at = block(arena, SIZE, ALIGN);
        call(BLANK, at);
        return at;
    }

    /** A blank seat. */
    static MemorySegment seat(Arena arena) {
        MemorySegment at = block(arena, SEAT_SIZE, SEAT_ALIGN);
        call(SEAT_BLANK, at);
        return at;
    }

    /** A blank memo. */
    static MemorySegment memo(Arena arena) {
        MemorySegment at = block(arena, MEMO_SIZE, MEMO_ALIGN);
        call(MEMO_BLANK, at);
        return at;
    }

    /** A blank view. */
    static MemorySegment view(Arena arena) {
        MemorySegment at = block(arena, VIEW_SIZE, VIEW_ALIGN);
        call(VIEW_BLANK, at);
        return at;
    }

    /** A renewal that hasn't begun. */
    static MemorySegment renewal(Arena arena) {
        MemorySegment at = block(arena, RENEWAL_SIZE, RENEWAL_ALIGN);
        call(RENEWAL_BLANK, at);
        return at;
    }

    static void close(MemorySegment at) {
        call(CLOSE, at);
    }

    static void seatLeave(MemorySegment at) {
        call(SEAT_LEAVE, at);
    }

    static void memoClose(MemorySegment at) {
        call(MEMO_CLOSE, at);
    }

    static void viewLeave(MemorySegment at) {
        call(VIEW_LEAVE, at);
    }

    static void renewalLeave(MemorySegment at) {
        call(RENEWAL_LEAVE, at);
    }

    static int open(MemorySegment at, int maxSites) {
        try {
            return (int) OPEN.invokeExact(at, maxSites);
        } catch (Throwable fault) {
            throw failed(fault);
        }
    }

    static int openWith(MemorySegment at, int sites, int loaders, int classes, int callSites, int switches) {
        try {
            return (int) OPEN_WITH.invokeExact(at, sites, loaders, classes, callSites, switches);
        } catch (Throwable fault) {
            throw failed(fault);
        }
    }

    static int newLoader(MemorySegment at, MemorySegment told) {
        try {
            return (int) NEW_LOADER.invokeExact(at, told);
        } catch (Throwable fault) {
            throw failed(fault);
        }
    }

    static int define(MemorySegment at, int loader, MemorySegment bytes, MemorySegment told) {
        try {
            return (int) DEFINE.invokeExact(at, loader, bytes, bytes.byteSize(), told);
        } catch (Throwable fault) {
            throw failed(fault);
        }
    }

    static int defineUpTo(MemorySegment at, int loader, char newest, MemorySegment bytes, MemorySegment told) {
        try {
            return (int) DEFINE_UP_TO.invokeExact(at, loader, newest, bytes, bytes.byteSize(), told);
        } catch (Throwable fault) {
            throw failed(fault);
        }
    }

    static int delegate(MemorySegment at, int loader, MemorySegment name, int to, MemorySegment told) {
        try {
            return (int) DELEGATE.invokeExact(at, loader, name, name.byteSize(), to, told);
        } catch (Throwable fault) {
            throw failed(fault);
        }
    }

    static int request(MemorySegment at, int type, int method, int pc, MemorySegment told) {
        try {
            return (int) REQUEST.invokeExact(at, type, method, pc, told);
        } catch (Throwable fault) {
            throw failed(fault);
        }
    }

    static int newCallSite(MemorySegment at, int kind, MemorySegment type, MemorySegment parts, MemorySegment told) {
        try {
            return (int) NEW_CALL_SITE.invokeExact(at, kind, type, type.byteSize(), parts, parts.byteSize() / TARGET_PART, told);
        } catch (Throwable fault) {
            throw failed(fault);
        }
    }

    static int setTarget(MemorySegment at, int callSite, MemorySegment parts, MemorySegment told) {
        try {
            return (int) SET_TARGET.invokeExact(at, callSite, parts, parts.byteSize() / TARGET_PART, told);
        } catch (Throwable fault) {
            throw failed(fault);
        }
    }

    static int newSwitch(MemorySegment at, MemorySegment told) {
        try {
            return (int) NEW_SWITCH.invokeExact(at, told);
        } catch (Throwable fault) {
            throw failed(fault);
        }
    }

    static int invalidate(MemorySegment at, MemorySegment switches, long count, MemorySegment told) {
        try {
            return (int) INVALIDATE.invokeExact(at, switches, count, told);
        } catch (Throwable fault) {
            throw failed(fault);
        }
    }

    static int bind(MemorySegment at, int site, int callSite, MemorySegment told) {
        try {
            return (int) BIND.invokeExact(at, site, callSite, told);
        } catch (Throwable fault) {
            throw failed(fault);
        }
    }

    static int retire(MemorySegment at, int loader, MemorySegment told) {
        try {
            return (int) RETIRE.invokeExact(at, loader, told);
        } catch (Throwable fault) {
            throw failed(fault);
        }
    }

    static int retireAll(MemorySegment at, MemorySegment loaders, long count, MemorySegment told) {
        try {
            return (int) RETIRE_ALL.invokeExact(at, loaders, count, told);
        } catch (Throwable fault) {
            throw failed(fault);
        }
    }

    static int release(MemorySegment at, MemorySegment callSites, long callSiteCount, MemorySegment switches, long switchCount,
            MemorySegment told) {
        try {
            return (int) RELEASE.invokeExact(at, callSites, callSiteCount, switches, switchCount, told);
        } catch (Throwable fault) {
            throw failed(fault);
        }
    }

    static int install(MemorySegment at, MemorySegment sites, long count, MemorySegment told) {
        try {
            return (int) INSTALL.invokeExact(at, sites, count, told);
        } catch (Throwable fault) {
            throw failed(fault);
        }
    }

    static int installLinks(MemorySegment at, MemorySegment rows, long count, MemorySegment told, MemorySegment present) {
        try {
            return (int) INSTALL_LINKS.invokeExact(at, rows, count, told, present);
        } catch (Throwable fault) {
            throw failed(fault);
        }
    }

    static int dropped(MemorySegment at, MemorySegment out, MemorySegment length) {
        try {
            return (int) DROPPED.invokeExact(at, out, out.byteSize() / Integer.BYTES, length);
        } catch (Throwable fault) {
            throw failed(fault);
        }
    }

    static int call(MemorySegment at, int site, int receiver, MemorySegment answer) {
        try {
            return (int) CALL.invokeExact(at, site, receiver, answer);
        } catch (Throwable fault) {
            throw failed(fault);
        }
    }

    static int linkOf(MemorySegment at, int site, MemorySegment link) {
        try {
            return (int) LINK_OF.invokeExact(at, site, link);
        } catch (Throwable fault) {
            throw failed(fault);
        }
    }

    static int linkPlace(MemorySegment at, int type, int method, int pc, MemorySegment link, MemorySegment told) {
        try {
            return (int) LINK_PLACE.invokeExact(at, type, method, pc, link, told);
        } catch (Throwable fault) {
            throw failed(fault);
        }
    }

    static int installReady(MemorySegment at, MemorySegment sites, long count, MemorySegment links, MemorySegment told) {
        try {
            return (int) INSTALL_READY.invokeExact(at, sites, count, links, count, told);
        } catch (Throwable fault) {
            throw failed(fault);
        }
    }

    static int check(MemorySegment at, char newest, MemorySegment bytes, MemorySegment told) {
        try {
            return (int) CHECK.invokeExact(at, newest, bytes, bytes.byteSize(), told);
        } catch (Throwable fault) {
            throw failed(fault);
        }
    }

    static int select(MemorySegment at, int type, int method, int receiver, MemorySegment answer) {
        try {
            return (int) SELECT.invokeExact(at, type, method, receiver, answer);
        } catch (Throwable fault) {
            throw failed(fault);
        }
    }

    static int resolve(MemorySegment at, int from, int named, MemorySegment name, MemorySegment type, MemorySegment resolution) {
        try {
            return (int) RESOLVE.invokeExact(at, from, named, name, name.byteSize(), type, type.byteSize(), resolution);
        } catch (Throwable fault) {
            throw failed(fault);
        }
    }

    static int classAccessible(MemorySegment at, int from, int type, MemorySegment accessible) {
        try {
            return (int) CLASS_ACCESSIBLE.invokeExact(at, from, type, accessible);
        } catch (Throwable fault) {
            throw failed(fault);
        }
    }

    static int lookup(MemorySegment at, int loader, MemorySegment name, MemorySegment type) {
        try {
            return (int) LOOKUP.invokeExact(at, loader, name, name.byteSize(), type);
        } catch (Throwable fault) {
            throw failed(fault);
        }
    }

    static int className(MemorySegment at, int type, MemorySegment out, MemorySegment length) {
        try {
            return (int) CLASS_NAME.invokeExact(at, type, out, out.byteSize(), length);
        } catch (Throwable fault) {
            throw failed(fault);
        }
    }

    static int methodName(MemorySegment at, int type, int method, MemorySegment out, MemorySegment length) {
        try {
            return (int) METHOD_NAME.invokeExact(at, type, method, out, out.byteSize(), length);
        } catch (Throwable fault) {
            throw failed(fault);
        }
    }

    static int methodType(MemorySegment at, int type, int method, MemorySegment out, MemorySegment length) {
        try {
            return (int) METHOD_TYPE.invokeExact(at, type, method, out, out.byteSize(), length);
        } catch (Throwable fault) {
            throw failed(fault);
        }
    }

    static int invocations(MemorySegment at, int type, int method, MemorySegment out, MemorySegment length) {
        try {
            return (int) INVOCATIONS.invokeExact(at, type, method, out, out.byteSize() / (Integer.BYTES * INVOCATION), length);
        } catch (Throwable fault) {
            throw failed(fault);
        }
    }

    static int named(MemorySegment at, MemorySegment out, MemorySegment length) {
        try {
            return (int) NAMED.invokeExact(at, out, out.byteSize(), length);
        } catch (Throwable fault) {
            throw failed(fault);
        }
    }

    static int awaited(MemorySegment at, int site, MemorySegment out, MemorySegment length) {
        try {
            return (int) AWAITED.invokeExact(at, site, out, out.byteSize(), length);
        } catch (Throwable fault) {
            throw failed(fault);
        }
    }

    static int lastWork(MemorySegment at, MemorySegment work) {
        try {
            return (int) LAST_WORK.invokeExact(at, work);
        } catch (Throwable fault) {
            throw failed(fault);
        }
    }

    static int catchUp(MemorySegment at) {
        try {
            return (int) CATCH_UP.invokeExact(at);
        } catch (Throwable fault) {
            throw failed(fault);
        }
    }

    static int counts(MemorySegment at, MemorySegment counts) {
        try {
            return (int) COUNT.invokeExact(at, counts);
        } catch (Throwable fault) {
            throw failed(fault);
        }
    }

    private static long count(MemorySegment numbers) {
        return numbers.byteSize() / Integer.BYTES;
    }

    /** The arrays are those of the new numbers, in the order of a linkd_count. */
    static int renew(MemorySegment at, MemorySegment fresh, int maxSites, MemorySegment callSites, MemorySegment points, MemorySegment[] to) {
        try {
            return (int) RENEW.invokeExact(at, fresh, maxSites, callSites, count(callSites), points, count(points), to[0], count(to[0]),
                    to[1], count(to[1]), to[2], count(to[2]), to[3], count(to[3]), to[4], count(to[4]));
        } catch (Throwable fault) {
            throw failed(fault);
        }
    }

    static int answer(MemorySegment at, MemorySegment line, MemorySegment length) {
        try {
            return (int) OBEY.invokeExact(at, line, line.byteSize(), length);
        } catch (Throwable fault) {
            throw failed(fault);
        }
    }

    static int take(MemorySegment at, MemorySegment out, MemorySegment length) {
        try {
            return (int) TAKE.invokeExact(at, out, out.byteSize(), length);
        } catch (Throwable fault) {
            throw failed(fault);
        }
    }

    static int seatRefresh(MemorySegment at, MemorySegment from) {
        try {
            return (int) SEAT_REFRESH.invokeExact(at, from);
        } catch (Throwable fault) {
            throw failed(fault);
        }
    }

    static long seatAnswer(MemorySegment at, int site, int receiver) {
        try {
            return (long) SEAT_ANSWER.invokeExact(at, site, receiver);
        } catch (Throwable fault) {
            throw failed(fault);
        }
    }

    static int seatCallWith(MemorySegment at, MemorySegment with, int site, int receiver, MemorySegment answer) {
        try {
            return (int) SEAT_CALL_WITH.invokeExact(at, with, site, receiver, answer);
        } catch (Throwable fault) {
            throw failed(fault);
        }
    }

    static int memoOpen(MemorySegment at, int sets) {
        try {
            return (int) MEMO_OPEN.invokeExact(at, sets);
        } catch (Throwable fault) {
            throw failed(fault);
        }
    }

    static int memoAsk(MemorySegment at, MemorySegment from, int site, int receiver, MemorySegment answer) {
        try {
            return (int) MEMO_ASK.invokeExact(at, from, site, receiver, answer);
        } catch (Throwable fault) {
            throw failed(fault);
        }
    }

    static int memoCall(MemorySegment at, int site, int receiver, MemorySegment answer) {
        try {
            return (int) MEMO_CALL.invokeExact(at, site, receiver, answer);
        } catch (Throwable fault) {
            throw failed(fault);
        }
    }

    static int viewTake(MemorySegment at, MemorySegment from) {
        try {
            return (int) VIEW_TAKE.invokeExact(at, from);
        } catch (Throwable fault) {
            throw failed(fault);
        }
    }

    static int viewSerial(MemorySegment at, MemorySegment serial) {
        try {
            return (int) VIEW_SERIAL.invokeExact(at, serial);
        } catch (Throwable fault) {
            throw failed(fault);
        }
    }

    static int viewCall(MemorySegment at, int site, int receiver, MemorySegment answer) {
        try {
            return (int) VIEW_CALL.invokeExact(at, site, receiver, answer);
        } catch (Throwable fault) {
            throw failed(fault);
        }
    }

    static int viewPrepare(MemorySegment at, MemorySegment sites, long count, MemorySegment links, MemorySegment told) {
        try {
            return (int) VIEW_PREPARE.invokeExact(at, sites, count, links, count, told);
        } catch (Throwable fault) {
            throw failed(fault);
        }
    }

    static int renewalBegin(MemorySegment at, MemorySegment from, int maxSites, MemorySegment callSites, MemorySegment points) {
        try {
            return (int) RENEWAL_BEGIN.invokeExact(at, from, maxSites, callSites, count(callSites), points, count(points));
        } catch (Throwable fault) {
            throw failed(fault);
        }
    }

    static int renewalTake(MemorySegment at, MemorySegment from, long most, MemorySegment left) {
        try {
            return (int) RENEWAL_TAKE.invokeExact(at, from, most, left);
        } catch (Throwable fault) {
            throw failed(fault);
        }
    }

    static int renewalFill(MemorySegment at, MemorySegment told) {
        try {
            return (int) RENEWAL_FILL.invokeExact(at, told);
        } catch (Throwable fault) {
            throw failed(fault);
        }
    }

    /** The arrays are those of the new numbers, in the order of a linkd_count. */
    static int renewalFinish(MemorySegment at, MemorySegment from, MemorySegment fresh, MemorySegment told, MemorySegment[] to) {
        try {
            return (int) RENEWAL_FINISH.invokeExact(at, from, fresh, told, to[0], count(to[0]), to[1], count(to[1]), to[2], count(to[2]),
                    to[3], count(to[3]), to[4], count(to[4]));
        } catch (Throwable fault) {
            throw failed(fault);
        }
    }
}
