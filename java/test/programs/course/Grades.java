import java.util.*;
import java.util.stream.*;

/** Grades of students: averages in whole points, ranks, a histogram. */
public class Grades {
    static final class Student {
        private final String name;
        private final List<Integer> marks;

        Student(String name, Integer... marks) {
            this.name = name;
            this.marks = Arrays.asList(marks);
        }

        int average() {
            return marks.stream().mapToInt(Integer::intValue).sum() / Math.max(1, marks.size());
        }

        char letter() {
            int a = average();
            return a >= 90 ? 'A' : a >= 80 ? 'B' : a >= 70 ? 'C' : 'F';
        }
    }

    public static void main(String[] args) {
        List<Student> all = Arrays.asList(new Student("Ada", 95, 98, 91), new Student("Bo", 70, 85), new Student("Cy", 60, 61, 62), new Student("Di"), new Student("Ed", 88, 79, 91));
        all.stream().sorted(Comparator.comparingInt(Student::average).reversed().thenComparing(s -> s.name)).forEach(s -> System.out.println(String.format("%-5s%4d  %c", s.name, s.average(), s.letter())));
        Map<Character, List<String>> byLetter = all.stream().collect(Collectors.groupingBy(Student::letter, TreeMap::new, Collectors.mapping(s -> s.name, Collectors.toList())));
        System.out.println(byLetter);
        int[] histogram = new int[11];
        all.forEach(s -> s.marks.forEach(m -> histogram[m / 10]++));
        for (int i = 0; i < histogram.length; i++) {
            if (histogram[i] > 0) {
                System.out.println(String.format("%3d: %s", i * 10, String.join("", Collections.nCopies(histogram[i], "#"))));
            }
        }
    }
}
