/** A proved devirtualizing linker for the JVM, called from Java. */
package linkd;
