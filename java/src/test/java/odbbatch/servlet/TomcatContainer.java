package odbbatch.servlet;

import java.nio.file.Files;
import javax.servlet.DispatcherType;
import javax.servlet.Filter;
import javax.servlet.http.HttpServlet;
import org.apache.catalina.Context;
import org.apache.catalina.startup.Tomcat;
import org.apache.tomcat.util.descriptor.web.FilterDef;
import org.apache.tomcat.util.descriptor.web.FilterMap;

/** Tomcat 9, or 10 with the sources for jakarta, where some names have changed. */
@SuppressWarnings("deprecation")
final class TomcatContainer implements Container {
    private final Tomcat server = new Tomcat();
    private final Context context;

    TomcatContainer(String contextPath) throws Exception {
        server.setBaseDir(Files.createTempDirectory("tomcat").toString());
        context = server.addContext(contextPath, null);
    }

    @Override
    public void filter(String name, Filter filter, String pattern, DispatcherType... types) {
        FilterDef definition = new FilterDef();
        definition.setFilterName(name);
        definition.setFilter(filter);
        context.addFilterDef(definition);
        FilterMap map = new FilterMap();
        map.setFilterName(name);
        map.addURLPatternDecoded(pattern);
        for (DispatcherType type : types) {
            map.setDispatcher(type.name());
        }
        context.addFilterMap(map);
    }

    @Override
    public void servlet(HttpServlet servlet, String pattern) {
        String name = "servlet " + pattern;
        Tomcat.addServlet(context, name, servlet);
        context.addServletMappingDecoded(pattern, name);
    }

    @Override
    public int start(int port) throws Exception {
        server.setHostname("localhost");
        server.setPort(port);
        server.getConnector().setProperty("address", "127.0.0.1");
        server.start();
        return server.getConnector().getLocalPort();
    }

    @Override
    public void stop() throws Exception {
        server.stop();
        server.destroy();
    }
}
