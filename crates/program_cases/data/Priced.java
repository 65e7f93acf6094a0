package shop;

/** What has a price. */
public interface Priced {
    /** In cents. */
    long price();

    enum Currency { EURO, POUND, YEN }
}
