public class Main {
    public static void main(String[] arguments) {
        String[] texts = {"1+2*3", "(a+0)*1-b", "7/(3-3)", "9%4*2", "2*(3", "0*z+5", "4$"};
        int faults = 0;
        for (String text : texts) {
            try {
                Expression expression = Parser.parse(text);
                if (Options.SIMPLIFY) {
                    expression = expression.simplified();
                }
                System.out.println(expression.text() + " = " + expression.value());
            } catch (Parser.Fault fault) {
                faults++;
                System.out.println(text + ": " + fault.getMessage() + " at " + fault.place);
            } catch (ArithmeticException e) {
                System.out.println(text + ": " + e.getMessage());
            } catch (IllegalStateException e) {
                System.err.println(e);
            }
        }
        if (faults == 2 && Options.LENIENT) {
            throw new IllegalArgumentException("faults " + faults);
        }
    }
}
