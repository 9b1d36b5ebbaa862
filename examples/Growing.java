import java.util.*;
public class Growing {
    static final List<Job> jobs = new ArrayList<>();
    static int[] counts = new int[4];
    static Late late;
    static class Job { int number; boolean done; Job next; byte[] text = new byte[40]; Job(int n, Job next) { number = n; this.next = next; } }
    static class Late { long at = 77; Job of; Late(Job job) { of = job; } }
    static void add(int from, int to) {
        for (int i = from; i < to; i++) jobs.add(new Job(i, jobs.isEmpty() ? null : jobs.get(jobs.size() - 1)));
    }
    static void dump(String path) throws Exception { // of all objects, so that none is moved between the two
        java.lang.management.ManagementFactory.getPlatformMXBean(com.sun.management.HotSpotDiagnosticMXBean.class).dumpHeap(path, false);
    }
    public static void main(String[] args) throws Exception {
        add(0, 50);
        counts[0] = 50;
        System.gc();
        dump(args[0]);
        add(50, 80);
        jobs.get(3).done = true;
        jobs.get(5).number = 1005;
        jobs.get(20).next = null;
        jobs.subList(40, 45).clear();
        counts = new int[6];
        late = new Late(jobs.get(7));
        dump(args[1]);
    }
}
