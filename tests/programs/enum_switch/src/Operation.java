/** Each constant has a body of its own. */
enum Operation {
    PLUS("+") {
        int apply(int a, int b) {
            return a + b;
        }
    },
    MINUS("-") {
        int apply(int a, int b) {
            return a - b;
        }
    },
    TIMES("*") {
        int apply(int a, int b) {
            return a * b;
        }
    };

    private final String sign;

    Operation(String sign) {
        this.sign = sign;
    }

    abstract int apply(int a, int b);

    @Override
    public String toString() {
        return sign;
    }
}
