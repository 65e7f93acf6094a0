package shop;

import java.util.Objects;

/** Something that is sold, with its price in cents. */
public final class Item implements Comparable<Item> {
    private final String name;
    private final long cents;

    public Item(String name, long cents) {
        this.name = Objects.requireNonNull(name);
        this.cents = cents;
    }

    public String name() {
        return name;
    }

    public long price() {
        return cents;
    }

    @Override
    public int compareTo(Item other) {
        return Long.compare(cents, other.cents);
    }
}
