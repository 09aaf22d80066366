/** How a program ends: after its last thread, by an exception, or by System.exit; with hooks. */
public class Ends {
    public static void main(String[] args) throws Exception {
        Runtime.getRuntime().addShutdownHook(new Thread(() -> System.out.println("a hook")));
        Thread daemon = new Thread(() -> {
            while (true) Thread.onSpinWait();
        });
        daemon.setDaemon(true);
        daemon.start();
        switch (args.length == 0 ? "" : args[0]) {
            case "throw":
                throw new IllegalStateException("ended");
            case "exit":
                new Thread(() -> System.exit(7)).start();
                Thread.sleep(100000);
                break;
            default:
                new Thread(() -> {
                    try {
                        Thread.sleep(50);
                    } catch (InterruptedException e) {
                        System.out.println(e);
                    }
                    System.out.println("the last thread");
                }).start();
                System.out.println("the end of main");
        }
    }
}
