package odbbatch.servlet;

import java.util.EnumSet;
import java.util.List;
import javax.servlet.DispatcherType;
import javax.servlet.Filter;
import javax.servlet.http.HttpServlet;
import org.eclipse.jetty.server.Server;
import org.eclipse.jetty.server.ServerConnector;
import org.eclipse.jetty.servlet.FilterHolder;
import org.eclipse.jetty.servlet.ServletContextHandler;
import org.eclipse.jetty.servlet.ServletHolder;

/** Jetty 9. */
final class JettyContainer implements Container {
    private final Server server = new Server();
    private final ServletContextHandler context = new ServletContextHandler();

    JettyContainer(String contextPath) {
        context.setContextPath(contextPath.isEmpty() ? "/" : contextPath);
        server.setHandler(context);
    }

    @Override
    public void filter(String name, Filter filter, String pattern, DispatcherType... types) {
        FilterHolder holder = new FilterHolder(filter);
        holder.setName(name);
        context.addFilter(holder, pattern, EnumSet.copyOf(List.of(types)));
    }

    @Override
    public void servlet(HttpServlet servlet, String pattern) {
        context.addServlet(new ServletHolder(servlet), pattern);
    }

    @Override
    public int start(int port) throws Exception {
        ServerConnector connector = new ServerConnector(server);
        connector.setHost("127.0.0.1");
        connector.setPort(port);
        server.addConnector(connector);
        server.start();
        return connector.getLocalPort();
    }

    @Override
    public void stop() throws Exception {
        server.stop();
    }
}
