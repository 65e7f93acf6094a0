package shop.stock;

import static java.util.stream.Collectors.groupingBy;

import java.lang.annotation.ElementType;
import java.lang.annotation.Retention;
import java.lang.annotation.RetentionPolicy;
import java.lang.annotation.Target;
import java.util.ArrayList;
import java.util.Comparator;
import java.util.EnumMap;
import java.util.HashMap;
import java.util.Iterator;
import java.util.List;
import java.util.Map;
import java.util.NoSuchElementException;
import java.util.Objects;
import java.util.Optional;
import java.util.function.BiFunction;
import java.util.function.Function;
import java.util.function.Predicate;

/** What lies where, and how much of it. Not safe for several threads. */
@Warehouse.Audited(by = "stock", roles = {"clerk", "owner"})
public sealed class Warehouse<T extends Comparable<T> & Warehouse.Stored>
        implements Iterable<Warehouse.Shelf<T>>, AutoCloseable permits Warehouse.Outpost {

    /** Says who looks at a type. */
    @Retention(RetentionPolicy.RUNTIME)
    @Target({ElementType.TYPE, ElementType.METHOD})
    public @interface Audited {
        String by() default "nobody";

        String[] roles() default {};

        int level() default 1 + 2 * 3;
    }

    /** What can be put on a shelf. */
    public interface Stored {
        int MAX_WEIGHT = 1_000;

        String label();

        default boolean isHeavy() {
            return weight() > MAX_WEIGHT / 2;
        }

        int weight();

        static Comparator<Stored> byWeight() {
            return (left, right) -> Integer.compare(left.weight(), right.weight());
        }
    }

    /** How a parcel is handled; some kinds do more than others. */
    public enum Handling implements Function<Parcel, String> {
        PLAIN,
        FRAGILE("with care") {
            @Override
            public String apply(Parcel parcel) {
                return "/* not a comment */ " + super.apply(parcel);
            }
        },
        @Deprecated
        COLD("below 5 degrees", 4) {
            private int checks;

            @Override
            public String apply(Parcel parcel) {
                checks++;
                return parcel.label() + " }";
            }
        };

        private final String hint;
        private final int limit;

        Handling() {
            this("");
        }

        Handling(String hint) {
            this(hint, Integer.MAX_VALUE);
        }

        Handling(String hint, int limit) {
            this.hint = hint;
            this.limit = limit;
        }

        @Override
        public String apply(Parcel parcel) {
            return parcel.label() + ": " + hint;
        }
    }

    /** A thing to send. */
    public record Parcel(String label, int weight, Handling handling) implements Stored, Comparable<Parcel> {
        static final char OPEN = '{', CLOSE = '}';

        public Parcel {
            Objects.requireNonNull(label, "a label, such as \"A-1\"");
            if (weight < 0) {
                throw new IllegalArgumentException("weight " + weight);
            }
        }

        public Parcel(String label) {
            this(label, 1, Handling.PLAIN);
        }

        @Override
        public int compareTo(Parcel other) {
            return Comparator.comparing(Parcel::label).thenComparingInt(Parcel::weight).compare(this, other);
        }

        record Pair<A, B>(A first, B second) {
            <C> Pair<C, B> withFirst(C other) {
                return new Pair<>(other, second);
            }
        }
    }

    /** A place with a number, and what lies there. */
    public static class Shelf<E extends Comparable<E>> {
        protected final int number;
        private final List<? super E> things = new ArrayList<>();
        private Map<String, List<Map.Entry<E, Integer>>> counts = new HashMap<>();
        private long[][] log = {{1L, 2L}, {3L}}, spare;

        Shelf(int number) {
            this.number = number;
        }

        public <R> Optional<R> first(Predicate<? super E> wanted, Function<E, ? extends R> then) {
            for (Object thing : things) {
                @SuppressWarnings("unchecked")
                E found = (E) thing;
                if (wanted.test(found)) {
                    return Optional.of(then.apply(found));
                }
            }
            return Optional.empty();
        }

        synchronized void put(E thing) {
            class Counter {
                int seen;
            }
            Counter counter = new Counter();
            counter.seen++;
            things.add(thing);
        }
    }

    /** A shelf far away. */
    static final class Outpost extends Warehouse<Parcel> implements java.io.Serializable {
        private static final long serialVersionUID = 1L;

        Outpost(String name) {
            super(name);
        }

        @Override
        public void close() {
            super.close();
        }
    }

    private static final String HELP =
            """
            class NotAClass {
                void notAMethod() { }  // "quotes" and \""" inside
            }
            """;
    private static final BiFunction<Integer, Integer, Integer> SUM = (a, b) -> {
        int total = a + b;
        return total;
    };

    private final String name;
    private final Map<Handling, List<Shelf<T>>> shelves = new EnumMap<>(Handling.class);
    protected volatile boolean open = true;

    static {
        System.setProperty("shop.help", HELP);
    }

    {
        for (Handling handling : Handling.values()) {
            shelves.put(handling, new ArrayList<>());
        }
    }

    protected Warehouse(String name) {
        this.name = name;
    }

    @Audited(by = "owner", level = 2)
    public final int add(Handling handling, Shelf<T> shelf) throws IllegalStateException {
        if (!open) {
            throw new IllegalStateException(name);
        }
        shelves.get(handling).add(shelf);
        return SUM.apply(shelf.number, 1);
    }

    public Map<Integer, List<Shelf<T>>> byNumber() {
        return shelves.values().stream().flatMap(List::stream).collect(groupingBy(shelf -> shelf.number));
    }

    @Override
    public Iterator<Shelf<T>> iterator() {
        return new Iterator<>() {
            private int at;

            @Override
            public boolean hasNext() {
                return at < shelves.get(Handling.PLAIN).size();
            }

            @Override
            public Shelf<T> next() {
                if (!hasNext()) throw new NoSuchElementException("at " + at);
                return shelves.get(Handling.PLAIN).get(at++);
            }
        };
    }

    @Override
    public void close() {
        open = false;
    }
}

interface Carrier {
    void carry(Warehouse.Parcel... parcels);
}
