/** The steps that a message takes on its way out and on its way in. */
final class Steps {
    private Steps() {
    }

    static Filter[] leaving() {
        return some(
            Options.ZIP ? new Filter.Zip() : null,
            Options.SIGN ? new Filter.Sign() : null,
            Options.ENCRYPT ? new Filter.Encrypt(false) : null);
    }

    static Filter[] coming() {
        return some(
            Options.ENCRYPT ? new Filter.Encrypt(true) : null,
            Options.FILTER ? new Filter.Spam() : null,
            Options.SIGN ? new Filter.Verify() : null);
    }

    private static Filter[] some(Filter... steps) {
        int count = 0;
        for (Filter step : steps) {
            if (step != null) {
                count++;
            }
        }
        Filter[] some = new Filter[count];
        int at = 0;
        for (Filter step : steps) {
            if (step != null) {
                some[at++] = step;
            }
        }
        return some;
    }
}
