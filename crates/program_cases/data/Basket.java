package shop;

import java.util.ArrayList;
import java.util.Collections;
import java.util.List;

/** What a customer takes to the till. */
public class Basket implements Priced {
    private final List<Item> items = new ArrayList<>();

    public void add(Item item) {
        items.add(item);
    }

    // the total price, in cents
    @Override
    public long price() {
        return items.stream().mapToLong(Item::price).sum();
    }

    public List<Item> items() {
        return Collections.unmodifiableList(items);
    }

    /** A basket from which something is taken off the price. */
    public static class Reduced extends Basket {
        private final int percent;

        public Reduced(int percent) {
            this.percent = percent;
        }

        @Override
        public long price() {
            return super.price() * (100 - percent) / 100;
        }
    }
}
