import java.io.FileWriter;
import java.io.IOException;
import java.util.Arrays;
import java.util.List;

/** Needs what isn't there: a mean of doubles, and a file. */
public class Report {
    static double mean(List<Integer> numbers) {
        int sum = 0;
        for (int n : numbers) {
            sum += n;
        }
        return (double) sum / numbers.size();
    }

    void write(String text) throws IOException {
        try (FileWriter writer = new FileWriter("report")) {
            writer.write(text);
        }
    }

    public static void main(String[] args) throws IOException {
        List<Integer> numbers = Arrays.asList(1, 2, 3);
        new Report().write("mean " + (int) mean(numbers));
    }
}
