import java.io.File;
import java.util.ArrayList;
import java.util.Comparator;
import java.util.List;
import org.graalvm.visualvm.lib.jfluid.heap.Heap;
import org.graalvm.visualvm.lib.jfluid.heap.HeapFactory;
import org.graalvm.visualvm.lib.jfluid.heap.HeapSummary;
import org.graalvm.visualvm.lib.jfluid.heap.Instance;
import org.graalvm.visualvm.lib.jfluid.heap.JavaClass;

/** Opens dumps with VisualVM's own library, and prints what it shows of each, part by part: `Reader.java FILE ..`. */
public class Reader {
    /** A part of what VisualVM shows. */
    private interface Part {
        void show(Heap heap);
    }

    /** Prints the parts of each dump. */
    public static void main(String[] files) {
        for (String file : files) {
            System.out.println("file " + file);
            show(new File(file));
        }
    }

    /** Prints the parts of a dump, or which part fails and how. */
    private static void show(File file) {
        Heap heap;
        try {
            heap = HeapFactory.createHeap(file);
        } catch (Exception fault) {
            failed("open", fault);
            return;
        }
        tried("overview", heap, Reader::overview);
        tried("sizes", heap, Reader::sizes);
        tried("objects", heap, Reader::objects);
        tried("retained", heap, Reader::retained);
        tried("nearest", heap, Reader::nearest);
    }

    /** Prints a part, or how it fails. */
    private static void tried(String name, Heap heap, Part part) {
        try {
            part.show(heap);
        } catch (RuntimeException fault) {
            failed(name, fault);
        }
    }

    /** Prints that a part failed. */
    private static void failed(String name, Exception fault) {
        System.out.println("fault " + name + " " + fault.getClass().getSimpleName() + ": " + fault.getMessage());
    }

    /** Prints how many objects there are, how many classes and roots, and when the dump was made. */
    private static void overview(Heap heap) {
        HeapSummary summary = heap.getSummary();
        System.out.println("total " + summary.getTotalLiveInstances() + " " + summary.getTotalLiveBytes());
        System.out.println("classes " + heap.getAllClasses().size());
        System.out.println("roots " + heap.getGCRoots().size());
        System.out.println("time " + summary.getTime());
    }

    /** Prints how many objects each class has, and their bytes; and the super of each class that has one. */
    private static void sizes(Heap heap) {
        for (JavaClass each : heap.getAllClasses()) {
            System.out.println("class " + each.getInstancesCount() + " " + each.getAllInstancesSize() + " " + each.getName());
            if (each.getSuperClass() != null) {
                System.out.println("super " + each.getName() + " " + each.getSuperClass().getName());
            }
        }
    }

    /** Returns the objects, by id, without those that stand for classes. */
    private static List<Instance> instances(Heap heap) {
        List<Instance> found = new ArrayList<>();
        for (JavaClass each : heap.getAllClasses()) {
            found.addAll(each.getInstances());
        }
        found.sort(Comparator.comparingLong(Instance::getInstanceId));
        return found;
    }

    /** Prints each object with its bytes and its class. */
    private static void objects(Heap heap) {
        for (Instance each : instances(heap)) {
            System.out.println("object " + id(each) + " " + each.getSize() + " " + each.getJavaClass().getName());
        }
    }

    /** Prints the retained size of each object. */
    private static void retained(Heap heap) {
        for (Instance each : instances(heap)) {
            System.out.println("retained " + id(each) + " " + each.getRetainedSize());
        }
    }

    /** Prints for each object the next one on its way to its nearest root: itself if it is a root, `-` if no root leads to it. */
    private static void nearest(Heap heap) {
        for (Instance each : instances(heap)) {
            Instance next = each.getNearestGCRootPointer();
            String root = each.isGCRoot() ? " root" : "";
            System.out.println("nearest " + id(each) + " " + (next == null ? "-" : id(next)) + root);
        }
    }

    /** Returns the id of an object, as heapdbg writes it. */
    private static String id(Instance object) {
        return String.format("0x%08x", object.getInstanceId());
    }
}
