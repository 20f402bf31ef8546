package shop;

import java.util.Collection;
import java.util.List;
import java.util.function.IntUnaryOperator;

/** Prices under the rules that are chosen. */
final class Prices {
    private final IntUnaryOperator all;

    Prices(List<IntUnaryOperator> rules) {
        IntUnaryOperator all = IntUnaryOperator.identity();
        for (IntUnaryOperator rule : rules) {
            all = all.andThen(rule);
        }
        this.all = all;
    }

    int of(Item item) {
        int cents = item.kind().mayBeReduced() ? all.applyAsInt(item.cents()) : item.cents();
        return Flags.TAX ? cents + cents * item.kind().tax() / 100 : cents;
    }

    int total(Collection<Integer> sums) {
        int total = 0;
        for (int sum : sums) {
            total += sum;
        }
        return total;
    }
}
