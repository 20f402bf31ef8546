import org.apache.commons.cli.CommandLine;
import org.apache.commons.cli.DefaultParser;
import org.apache.commons.cli.Option;
import org.apache.commons.cli.Options;
import org.apache.commons.cli.ParseException;

/** Settings of a parser of command lines: which combination turns a line into a fault? */
public class Main {
    static boolean REQUIRED, LONG, VALUE, PARTIAL, STOP, GROUP, QUOTED, EXTRA;

    public static void main(String[] args) {
        Options options = new Options();
        options.addOption(Option.builder("v").longOpt(LONG ? "verbose" : null).required(REQUIRED).desc("more words").build());
        options.addOption(Option.builder("f").longOpt("file").hasArg(VALUE).argName("FILE").build());
        if (GROUP) {
            options.addOptionGroup(new org.apache.commons.cli.OptionGroup().addOption(new Option("a", "all")).addOption(new Option("b", "one")));
        }
        String[] line = {EXTRA ? "word" : "-v", PARTIAL ? "--verb" : "-f", QUOTED ? "\"a b\"" : "name", GROUP ? "-a" : "x", "-b"};
        try {
            CommandLine read = new DefaultParser(PARTIAL).parse(options, line, STOP);
            System.out.println(read.hasOption("v") + " " + read.getOptionValue("file", "none") + " " + read.getArgList());
            for (Option option : read.getOptions()) {
                System.out.println(option.getOpt() + " " + option.getValuesList());
            }
        } catch (ParseException e) {
            System.out.println(e.getClass().getSimpleName() + ": " + e.getMessage());
        }
        System.out.println(options.getOption("f"));
    }
}
