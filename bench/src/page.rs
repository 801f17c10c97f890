//! A page with a mark before each table, `<!-- bench NAME -->`, and one after it.

use crate::table::Table;

/// The tables of docs/SPEED.md, in its order; the last is that of bench/shares.
pub const TABLES: [&str; 17] = [
    "step",
    "many",
    "staying",
    "worst",
    "growth-charts",
    "growth-more-charts",
    "growth-transitions",
    "growth-nodes",
    "run",
    "posting",
    "office",
    "calls",
    "files",
    "reading",
    "writing",
    "memory",
    "shares",
];

/// The mark after a table.
const END: &str = "<!-- end -->";

/// The page with a table in place of what is between the marks of a name.
pub fn with_table(page: &str, name: &str, table: &Table) -> Result<String, String> {
    let lacks = || format!("the page has no place for {name}");
    let mark = format!("<!-- bench {name} -->\n");
    let start = page.find(&mark).ok_or_else(lacks)? + mark.len();
    let length = page[start..].find(END).ok_or_else(lacks)?;
    let (before, after) = (&page[..start], &page[start + length..]);
    Ok(format!("{before}{table}{after}"))
}
