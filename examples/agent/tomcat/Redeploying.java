import java.io.IOException;
import java.io.InputStream;
import java.io.OutputStream;
import java.lang.ref.WeakReference;
import java.net.InetAddress;
import java.net.Socket;
import java.nio.charset.StandardCharsets;
import java.nio.file.Path;
import java.util.ArrayList;
import java.util.List;
import org.apache.catalina.Context;
import org.apache.catalina.startup.Tomcat;
import org.apache.tomcat.util.modeler.Registry;

/** An embedded Tomcat that deploys the web application of shop/ again and again, each time by a new loader, and asks it by HTTP. */
public final class Redeploying {
    private static final int DEPLOYMENTS = 21;
    private static final int REQUESTS = 5;

    private Redeploying() {
    }

    /** What the application answers to a path. */
    static String asked(int port, String path) throws IOException {
        try (Socket socket = new Socket(InetAddress.getLoopbackAddress(), port)) {
            OutputStream to = socket.getOutputStream();
            to.write(("GET " + path + " HTTP/1.1\r\nHost: localhost\r\nConnection: close\r\n\r\n").getBytes(StandardCharsets.US_ASCII));
            to.flush();
            InputStream from = socket.getInputStream();
            String answer = new String(from.readAllBytes(), StandardCharsets.UTF_8);
            return answer.substring(answer.indexOf("\r\n\r\n") + 4);
        }
    }

    /** Deploys the application, asks it and takes it away. What is told is its loader, which nothing needs any more. */
    static WeakReference<ClassLoader> deployed(Tomcat tomcat, String folder) throws IOException {
        Context context = tomcat.addContext("/shop", folder);
        Tomcat.addServlet(context, "shop", "shop.Shop").addMapping("/*");
        int port = tomcat.getConnector().getLocalPort();
        for (int number = 0; number < REQUESTS; number++) {
            String answer = asked(port, "/shop/" + number);
            String wanted = "shop.Plain " + number * 10 + ", shop.Reduced " + number * 9 + ", shop.Gift 0";
            if (!answer.contains(wanted)) {
                throw new AssertionError(answer);
            }
        }
        WeakReference<ClassLoader> loader = new WeakReference<>(context.getLoader().getClassLoader());
        tomcat.getHost().removeChild(context);
        return loader;
    }

    static long left(List<WeakReference<ClassLoader>> loaders) {
        return loaders.stream().filter(loader -> loader.get() != null).count();
    }

    /** How many loaders are left when all was deployed and taken away. */
    static long redeployed(Tomcat tomcat, String folder) throws IOException, InterruptedException {
        List<WeakReference<ClassLoader>> loaders = new ArrayList<>();
        for (int deployment = 0; deployment < DEPLOYMENTS; deployment++) {
            loaders.add(deployed(tomcat, folder));
            System.gc();
        }
        Thread.sleep(500);
        return left(loaders);
    }

    /** The folder of the web application, and one that Tomcat may write in. */
    public static void main(String[] words) throws Exception {
        Registry.disableRegistry();
        Tomcat tomcat = new Tomcat();
        tomcat.setBaseDir(words[1]);
        tomcat.setPort(0);
        tomcat.getConnector().setProperty("address", "localhost");
        tomcat.getHost();
        tomcat.start();
        try {
            long left = redeployed(tomcat, Path.of(words[0]).toAbsolutePath().toString());
            System.out.println(DEPLOYMENTS + " deployments, of whose loaders " + left + " are left");
        } finally {
            tomcat.stop();
            tomcat.destroy();
        }
    }
}
