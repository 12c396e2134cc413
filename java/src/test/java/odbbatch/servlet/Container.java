package odbbatch.servlet;

import javax.servlet.DispatcherType;
import javax.servlet.Filter;
import javax.servlet.http.HttpServlet;

/** An embedded server with one application, below the path /app if it is so wanted. */
interface Container {
    /** Adds a filter, after those before. */
    void filter(String name, Filter filter, String pattern, DispatcherType... types);

    /** Adds a servlet. */
    void servlet(HttpServlet servlet, String pattern);

    /** Starts at a port of the loopback, 0 for a free one; returns the port. */
    int start(int port) throws Exception;

    void stop() throws Exception;

    /** A container by the name of its class: JettyContainer or TomcatContainer. */
    static Container of(String name, String contextPath) throws Exception {
        return (Container) Class.forName(Container.class.getPackageName() + "." + name).getDeclaredConstructor(String.class).newInstance(contextPath);
    }
}
