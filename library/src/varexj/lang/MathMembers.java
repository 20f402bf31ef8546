package varexj.lang;

/** The members of Math that the machine doesn't have, but for those of floats. */
public final class MathMembers {
    private MathMembers() {
    }

    /** {@code Math.floorDiv(dividend, divisor)}. */
    public static int floorDiv(int dividend, int divisor) {
        int quotient = dividend / divisor;
        return (dividend ^ divisor) < 0 && quotient * divisor != dividend ? quotient - 1 : quotient;
    }

    /** {@code Math.floorDiv(dividend, divisor)}. */
    public static long floorDiv(long dividend, int divisor) {
        return floorDiv(dividend, (long) divisor);
    }

    /** {@code Math.floorDiv(dividend, divisor)}. */
    public static long floorDiv(long dividend, long divisor) {
        long quotient = dividend / divisor;
        return (dividend ^ divisor) < 0 && quotient * divisor != dividend ? quotient - 1 : quotient;
    }

    /** {@code Math.floorMod(dividend, divisor)}. */
    public static int floorMod(int dividend, int divisor) {
        int rest = dividend % divisor;
        return (rest ^ divisor) < 0 && rest != 0 ? rest + divisor : rest;
    }

    /** {@code Math.floorMod(dividend, divisor)}. */
    public static int floorMod(long dividend, int divisor) {
        return (int) floorMod(dividend, (long) divisor);
    }

    /** {@code Math.floorMod(dividend, divisor)}. */
    public static long floorMod(long dividend, long divisor) {
        long rest = dividend % divisor;
        return (rest ^ divisor) < 0 && rest != 0 ? rest + divisor : rest;
    }

    /** {@code Math.ceilDiv(dividend, divisor)}. */
    public static int ceilDiv(int dividend, int divisor) {
        int quotient = dividend / divisor;
        return (dividend ^ divisor) >= 0 && quotient * divisor != dividend ? quotient + 1 : quotient;
    }

    /** {@code Math.ceilDiv(dividend, divisor)}. */
    public static long ceilDiv(long dividend, long divisor) {
        long quotient = dividend / divisor;
        return (dividend ^ divisor) >= 0 && quotient * divisor != dividend ? quotient + 1 : quotient;
    }

    /** {@code Math.addExact(left, right)}. */
    public static int addExact(int left, int right) {
        int sum = left + right;
        if (((left ^ sum) & (right ^ sum)) < 0) {
            throw new ArithmeticException("integer overflow");
        }
        return sum;
    }

    /** {@code Math.addExact(left, right)}. */
    public static long addExact(long left, long right) {
        long sum = left + right;
        if (((left ^ sum) & (right ^ sum)) < 0) {
            throw new ArithmeticException("long overflow");
        }
        return sum;
    }

    /** {@code Math.subtractExact(left, right)}. */
    public static int subtractExact(int left, int right) {
        int sum = left - right;
        if (((left ^ right) & (left ^ sum)) < 0) {
            throw new ArithmeticException("integer overflow");
        }
        return sum;
    }

    /** {@code Math.subtractExact(left, right)}. */
    public static long subtractExact(long left, long right) {
        long sum = left - right;
        if (((left ^ right) & (left ^ sum)) < 0) {
            throw new ArithmeticException("long overflow");
        }
        return sum;
    }

    /** {@code Math.multiplyExact(left, right)}. */
    public static int multiplyExact(int left, int right) {
        return exactInt((long) left * right);
    }

    /** {@code Math.multiplyExact(left, right)}. */
    public static long multiplyExact(long left, int right) {
        return multiplyExact(left, (long) right);
    }

    /** {@code Math.multiplyExact(left, right)}. */
    public static long multiplyExact(long left, long right) {
        long product = left * right;
        if (left != 0 && (product / left != right || left == -1 && right == Long.MIN_VALUE)) {
            throw new ArithmeticException("long overflow");
        }
        return product;
    }

    /** {@code Math.incrementExact(number)}. */
    public static int incrementExact(int number) {
        if (number == 0x7FFFFFFF) {
            throw new ArithmeticException("integer overflow");
        }
        return number + 1;
    }

    /** {@code Math.decrementExact(number)}. */
    public static int decrementExact(int number) {
        if (number == 0x80000000) {
            throw new ArithmeticException("integer overflow");
        }
        return number - 1;
    }

    /** {@code Math.negateExact(number)}. */
    public static int negateExact(int number) {
        if (number == 0x80000000) {
            throw new ArithmeticException("integer overflow");
        }
        return -number;
    }

    /** {@code Math.absExact(number)}. */
    public static int absExact(int number) {
        if (number == 0x80000000) {
            throw new ArithmeticException("Overflow to represent absolute value of Integer.MIN_VALUE");
        }
        return Math.abs(number);
    }

    /** {@code Math.incrementExact(number)}. */
    public static long incrementExact(long number) {
        if (number == Long.MAX_VALUE) {
            throw new ArithmeticException("long overflow");
        }
        return number + 1;
    }

    /** {@code Math.decrementExact(number)}. */
    public static long decrementExact(long number) {
        if (number == Long.MIN_VALUE) {
            throw new ArithmeticException("long overflow");
        }
        return number - 1;
    }

    /** {@code Math.negateExact(number)}. */
    public static long negateExact(long number) {
        if (number == Long.MIN_VALUE) {
            throw new ArithmeticException("long overflow");
        }
        return -number;
    }

    /** {@code Math.absExact(number)}. */
    public static long absExact(long number) {
        if (number == Long.MIN_VALUE) {
            throw new ArithmeticException("Overflow to represent absolute value of Long.MIN_VALUE");
        }
        return Math.abs(number);
    }

    /** {@code Math.toIntExact(number)}. */
    public static int toIntExact(long number) {
        return exactInt(number);
    }

    private static int exactInt(long number) {
        if ((int) number != number) {
            throw new ArithmeticException("integer overflow");
        }
        return (int) number;
    }

    /** {@code Math.multiplyFull(left, right)}. */
    public static long multiplyFull(int left, int right) {
        return (long) left * right;
    }

    /** {@code Math.multiplyHigh(left, right)}. */
    public static long multiplyHigh(long left, long right) {
        long leftHigh = left >> 32;
        long leftLow = left & 0xFFFFFFFFL;
        long rightHigh = right >> 32;
        long rightLow = right & 0xFFFFFFFFL;
        long middle = leftHigh * rightLow + (leftLow * rightLow >>> 32);
        return leftHigh * rightHigh + (middle >> 32) + ((middle & 0xFFFFFFFFL) + leftLow * rightHigh >> 32);
    }

    /** {@code Math.clamp(value, least, greatest)}. */
    public static int clamp(long value, int least, int greatest) {
        return (int) clamp(value, (long) least, (long) greatest);
    }

    /** {@code Math.clamp(value, least, greatest)}. */
    public static long clamp(long value, long least, long greatest) {
        if (least > greatest) {
            throw new IllegalArgumentException(least + " > " + greatest);
        }
        return Math.min(greatest, Math.max(value, least));
    }
}
