// classpath: /usr/share/java/commons-collections3.jar
import java.util.*;
import org.apache.commons.collections.Bag;
import org.apache.commons.collections.BidiMap;
import org.apache.commons.collections.Buffer;
import org.apache.commons.collections.Predicate;
import org.apache.commons.collections.CollectionUtils;
import org.apache.commons.collections.Transformer;
import org.apache.commons.collections.ListUtils;
import org.apache.commons.collections.Factory;
import org.apache.commons.collections.IteratorUtils;
import org.apache.commons.collections.BufferUnderflowException;
import org.apache.commons.collections.bag.TreeBag;
import org.apache.commons.collections.bag.HashBag;
import org.apache.commons.collections.bidimap.TreeBidiMap;
import org.apache.commons.collections.buffer.CircularFifoBuffer;
import org.apache.commons.collections.buffer.PriorityBuffer;
import org.apache.commons.collections.buffer.UnboundedFifoBuffer;
import org.apache.commons.collections.iterators.IteratorChain;
import org.apache.commons.collections.keyvalue.DefaultKeyValue;
import org.apache.commons.collections.list.LazyList;
import org.apache.commons.collections.list.TreeList;
import org.apache.commons.collections.list.CursorableLinkedList;
import org.apache.commons.collections.set.ListOrderedSet;

/** A driver for the class files of commons-collections 3. */
public class CommonsCollections {
    public static void main(String[] args) {
        Bag bag = new TreeBag(Arrays.asList("b", "a", "b", "c", "b"));
        System.out.println(bag.getCount("b") + " " + bag.uniqueSet() + " " + bag.size() + " " + new HashBag(bag).getCount("a"));
        BidiMap bidi = new TreeBidiMap();
        bidi.put("one", 1);
        bidi.put("two", 2);
        System.out.println(bidi.getKey(2) + " " + bidi.inverseBidiMap().get(1) + " " + bidi);
        Buffer ring = new CircularFifoBuffer(3);
        for (int i = 0; i < 5; i++) {
            ring.add(i);
        }
        System.out.println(ring + " " + ring.remove() + " " + ring.get());
        Collection even = CollectionUtils.select(Arrays.asList(1, 2, 3, 4), new Predicate() {
            public boolean evaluate(Object o) {
                return (Integer) o % 2 == 0;
            }
        });
        System.out.println(even + " " + CollectionUtils.union(even, Arrays.asList(4, 5)) + CollectionUtils.intersection(even, Arrays.asList(2, 9)) + CollectionUtils.subtract(Arrays.asList(1, 2), even));
        Collection squares = CollectionUtils.collect(Arrays.asList(1, 2, 3), new Transformer() {
            public Object transform(Object o) {
                return (Integer) o * (Integer) o;
            }
        });
        System.out.println(squares + " " + CollectionUtils.isEmpty(null) + " " + ListUtils.sum(Arrays.asList(1), Arrays.asList(2)));
        List lazy = LazyList.decorate(new ArrayList(), new Factory() {
            public Object create() {
                return "made";
            }
        });
        System.out.println(lazy.get(2) + " " + lazy.size());
        List tree = new TreeList(Arrays.asList(3, 1, 2));
        tree.add(1, 9);
        System.out.println(tree + " " + tree.indexOf(2) + " " + new CursorableLinkedList(tree));
        Iterator both = new IteratorChain(Arrays.asList(1, 2).iterator(), Arrays.asList(3).iterator());
        System.out.println(IteratorUtils.toList(both) + " " + new DefaultKeyValue("k", "v") + " " + ListOrderedSet.decorate(new ArrayList(Arrays.asList("q", "p", "q"))));
        try {
            new UnmodifiableArrayStackTest().run();
        } catch (BufferUnderflowException e) {
            System.out.println("underflow " + e.getMessage());
        }
        PriorityBuffer heap = new PriorityBuffer();
        heap.addAll(Arrays.asList(5, 1, 3));
        System.out.println(heap.remove() + " " + heap.remove() + " " + heap.size());
    }

    static class UnmodifiableArrayStackTest {
        void run() {
            new UnboundedFifoBuffer().remove();
        }
    }
}
