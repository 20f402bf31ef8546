import java.util.ArrayList;
import java.util.Collections;
import java.util.List;
import java.util.Objects;

final class Order implements Comparable<Order> {
    final String customer;
    final int number;
    private final List<String> items = new ArrayList<>();
    private int cents;

    Order(String customer, int number) {
        this.customer = Objects.requireNonNull(customer, "customer");
        this.number = number;
    }

    Order with(String item, int price) {
        items.add(item);
        cents += price;
        return this;
    }

    List<String> items() {
        return Collections.unmodifiableList(items);
    }

    int total() {
        return Options.DISCOUNT && items.size() > 2 ? cents * 9 / 10 : cents;
    }

    @Override
    public int compareTo(Order other) {
        return Integer.compare(total(), other.total());
    }

    @Override
    public boolean equals(Object o) {
        return o instanceof Order && ((Order) o).number == number && ((Order) o).customer.equals(customer);
    }

    @Override
    public int hashCode() {
        return Objects.hash(customer, number);
    }

    @Override
    public String toString() {
        return customer + number + items + total();
    }
}
