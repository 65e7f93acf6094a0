package shop;

import java.io.PrintStream;

public class Till implements AutoCloseable {
    private final PrintStream out;
    private long taken;

    public Till(PrintStream out) {
        this.out = out;
    }

    public void pay(Priced basket) {
        taken += basket.price();
        out.println("price: " + basket.price());
    }

    @Override
    public void close() {
        out.println("taken: " + taken);
    }
}
