package linkd;

/**
 * A site with the link that was prepared for it.
 *
 * @param site the site
 * @param link the link that it is to have
 */
public record SiteLink(SiteId site, Link link) {
}
