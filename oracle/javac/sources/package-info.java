/** Small sources, each with constants of its own kind. */
@Deprecated
package small;
