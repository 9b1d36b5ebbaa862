/** Two rings, of which the second grows for each line of standard input: the program whose heap dumps stand beside this file. */
public class Rings {
    static Ring still, growing;

    static class Ring {
        Ring next = this;
        int number;
        double share;
        char letter;
        boolean even;
        short small;
        byte least;
        float half;
        long wide;
        String name;
        int[] counts = {1, 2, 3};
        Object[] many = {this, "one", null};

        Ring(int i) {
            number = i;
            share = i / 4.0;
            letter = (char) ('A' + i);
            even = i % 2 == 0;
            small = (short) -i;
            least = (byte) i;
            half = i / 2f;
            wide = -1L - i;
            name = "ring " + i;
        }

        Ring followedBy(int i) {
            Ring made = new Ring(i);
            made.next = next;
            next = made;
            return made;
        }
    }

    public static void main(String[] args) throws Exception {
        still = new Ring(0);
        growing = new Ring(100);
        for (int i = 1; i < 40; i++) {
            still.followedBy(i);
        }
        do {
            for (int i = 101; i < 120; i++) {
                growing.followedBy(i);
            }
            System.out.println("ready");
        } while (System.in.read() == '\n');
    }
}
