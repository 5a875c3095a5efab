// What web/build puts into the page, as the page takes it.

/** The modules, packed, the preferred one first: [name, text]. */
export const MODULES: [string, string][];
/** The texts of the conformance suite, packed. */
export const EXAMPLES: string;
/** What stands in docs/reasons.tsv of each reason: its class, what a developer and an archive do, and for some what it
 * means. */
export const REASONS: Record<string, [string, string, string, string?]>;
/** What stands in docs/warnings.tsv of each kind: its name, what it means, what comes of it, and what a developer
 * does. */
export const WARNING_TEXTS: Record<string, [string, string, string, string]>;
/** What files are by their first bytes, by docs/foreign.tsv: the place of the bytes, these as digits, and what the file
 * is. */
export const FOREIGN: [number, string, string][];
