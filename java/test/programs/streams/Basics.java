import java.util.*;
import java.util.function.Function;
import java.util.stream.*;

/** Streams of objects and of ints, and the usual collectors. */
public class Basics {
    static class Person {
        final String name;
        final int age;
        final String city;

        Person(String name, int age, String city) {
            this.name = name;
            this.age = age;
            this.city = city;
        }

        String getName() {
            return name;
        }

        int getAge() {
            return age;
        }

        String getCity() {
            return city;
        }

        @Override
        public String toString() {
            return name + "(" + age + ")";
        }
    }

    static void show(Object o) {
        System.out.println(o);
    }

    public static void main(String[] args) {
        List<Person> people = Arrays.asList(new Person("Ann", 30, "Oslo"), new Person("Bob", 25, "Rome"), new Person("Cid", 35, "Oslo"), new Person("Dee", 25, "Bonn"), new Person("Eve", 41, "Rome"));
        show(people.stream().filter(p -> p.age > 26).map(Person::getName).collect(Collectors.toList()));
        System.out.println(people.stream().mapToInt(Person::getAge).sum() + " " + people.stream().mapToInt(Person::getAge).max().getAsInt());
        show(people.stream().collect(Collectors.groupingBy(Person::getCity, TreeMap::new, Collectors.counting())));
        show(people.stream().collect(Collectors.groupingBy(Person::getAge, TreeMap::new, Collectors.mapping(Person::getName, Collectors.joining("/", "<", ">")))));
        show(people.stream().collect(Collectors.partitioningBy(p -> p.age >= 30)));
        show(people.stream().sorted(Comparator.comparingInt(Person::getAge).thenComparing(Person::getName, Comparator.reverseOrder())).collect(Collectors.toList()));
        show(people.stream().collect(Collectors.toMap(Person::getName, Person::getAge, (a, b) -> a, LinkedHashMap::new)));
        System.out.println(people.stream().min(Comparator.comparing(Person::getCity)).get() + " " + people.stream().map(Person::getCity).distinct().count());
        System.out.println(people.stream().anyMatch(p -> p.age > 40) + " " + people.stream().allMatch(p -> p.age > 25) + " " + people.stream().noneMatch(p -> p.name.isEmpty()));
        System.out.println(IntStream.rangeClosed(1, 5).map(x -> x * x).boxed().collect(Collectors.toList()) + " " + IntStream.range(0, 10).filter(x -> x % 3 == 0).sum());
        System.out.println(Stream.of("a", "b", "c").reduce("", (a, b) -> a + b) + " " + Stream.of(1, 2, 3).reduce(Integer::sum).get() + " " + Stream.of(1, 2, 3, 4).reduce(0, (a, b) -> a + b, Integer::sum));
        System.out.println(Stream.iterate(1, x -> x * 2).limit(10).skip(3).map(String::valueOf).collect(Collectors.joining(",")));
        System.out.println(Arrays.asList(Arrays.asList(1, 2), Arrays.asList(3)).stream().flatMap(List::stream).map(x -> x + 1).collect(Collectors.toList()));
        show(Stream.of("x", "yy", "zzz").collect(Collectors.toMap(Function.identity(), String::length)));
        List<String> seen = new ArrayList<>();
        Optional<Integer> first = Stream.of(5, 8, 12, 3).peek(x -> seen.add("p" + x)).filter(x -> x > 6).findFirst();
        System.out.println(first.get() + " " + seen);
        System.out.println(IntStream.of(3, 1, 2).sorted().mapToObj(Integer::toString).collect(Collectors.joining()) + Arrays.toString(IntStream.range(0, 3).toArray()));
        IntSummaryStatistics st = people.stream().mapToInt(Person::getAge).summaryStatistics();
        System.out.println(st.getMin() + " " + st.getMax() + " " + st.getSum() + " " + st.getCount());
        System.out.println(Arrays.toString(people.stream().map(Person::getName).toArray(String[]::new)));
        System.out.println(LongStream.rangeClosed(1, 20).reduce(1, (a, b) -> a * b) + " " + Stream.of(1, 2, 3, 4, 5).collect(Collectors.summingInt(x -> x)));
        System.out.println(Stream.generate(() -> "z").limit(3).collect(Collectors.joining()) + " " + Stream.concat(Stream.of(1), Stream.of(2)).collect(Collectors.toSet()));
        show("hello".chars().mapToObj(c -> (char) c).collect(Collectors.groupingBy(c -> c, LinkedHashMap::new, Collectors.counting())));
        Stream<Integer> s = Stream.of(1);
        s.forEach(x -> { });
        try {
            s.forEach(x -> { });
        } catch (IllegalStateException e) {
            System.out.println(e.getMessage());
        }
        try {
            Stream.of("a", "a").collect(Collectors.toMap(x -> x, x -> 1));
        } catch (IllegalStateException e) {
            System.out.println(e.getMessage());
        }
        show(people.stream().collect(Collectors.collectingAndThen(Collectors.toList(), List::size)) + " " + people.stream().map(Person::getAge).collect(Collectors.toCollection(TreeSet::new)) + people.stream().collect(Collectors.maxBy(Comparator.comparingInt(Person::getAge))).get());
        show(Stream.of(1, 2, 3, 4, 5, 6).collect(Collectors.partitioningBy(x -> x % 2 == 0, Collectors.reducing(0, Integer::sum))));
    }
}
