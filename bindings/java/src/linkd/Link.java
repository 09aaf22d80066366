package linkd;

import java.util.List;

/** What each call at a site comes to: a link that is installed there, or that was prepared for it. */
public sealed interface Link {
    /**
     * Each call throws.
     *
     * @param error what it throws
     */
    record Fault(Answer.Error error) implements Link {
    }

    /**
     * Each call runs this method, and has no receiver. A plain link that throws is none.
     *
     * @param outcome the method
     */
    record Plain(Answer.Outcome outcome) implements Link {
    }

    /**
     * Each call on an object comes to this.
     *
     * @param outcome what it comes to
     */
    record Direct(Answer.Outcome outcome) implements Link {
    }

    /**
     * By the receiver's class.
     *
     * @param ofInterface whether an invokeinterface is linked, or an invokevirtual
     * @param rows at most eight, by rising class
     */
    record Table(boolean ofInterface, List<Row> rows) implements Link {
        public Table {
            rows = List.copyOf(rows);
        }
    }

    /** There are too many classes for a table. */
    record Megamorphic() implements Link {
    }

    /**
     * A row of a table.
     *
     * @param receiver the receiver's class
     * @param outcome what a call on an object of it comes to
     */
    record Row(ClassId receiver, Answer.Outcome outcome) {
    }
}
