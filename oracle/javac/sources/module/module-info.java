/** A module's file has Module and Package constants. */
module small.module {
    requires java.base;
    requires transitive java.logging;
    requires static java.xml;
    exports small.shown;
    exports small.lent to java.logging, java.xml;
    opens small.open;
    uses java.util.spi.ToolProvider;
    provides java.util.spi.ToolProvider with small.shown.Tool;
}
