import java.util.*;
public class Cache {
    static final Map<Integer, Session> sessions = new HashMap<>();
    static class Session { int user; byte[] buffer = new byte[900]; List<Request> requests = new ArrayList<>(); Session(int u) { user = u; } }
    static class Request { String url; Session session; Request(String u, Session s) { url = u; session = s; } }
    public static void main(String[] args) throws Exception {
        for (int i = 0; i < 300; i++) {
            Session s = new Session(i);
            for (int j = 0; j < 5; j++) s.requests.add(new Request("/page/" + i + "/" + j, s));
            sessions.put(i, s); // never removed: the leak
        }
        java.lang.management.ManagementFactory.getPlatformMXBean(com.sun.management.HotSpotDiagnosticMXBean.class).dumpHeap(args[0], true);
    }
}
