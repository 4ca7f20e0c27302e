/** </script><script>document.title = "owned"</script> <img src=x onerror=alert(1)> &amp; ESC: RLO: */
public class Evil extends Thread {
    static int field;
    int own;
    static Evil shared = new Evil();

    static void method() {
        field++;
        shared.own++;
    }

    public void run() {
        synchronized (shared) {
            method();
        }
    }

    public static void main(String[] words) throws InterruptedException {
        String text = "TEXT";
        System.out.println(text);
        Evil one = new Evil(), two = new Evil();
        one.start();
        two.start();
        method();
        one.join();
        two.join();
        throw new IllegalStateException(text);
    }
}
