//! How numbers are printed and drawn.

use bench::page::{with_table, TABLES};
use bench::picture::{picture, Bar, Other};
use bench::table::{ratio, time, Row, Table};

#[test]
fn ratios_have_about_three_digits() {
    let printed: Vec<String> = [0.5, 9.876, 10.0, 99.94, 123.4, 1_850_432.0]
        .into_iter()
        .map(ratio)
        .collect();
    assert_eq!(
        printed,
        ["0.50", "9.88", "10.0", "99.9", "123", "1,850,000"]
    );
}

#[test]
fn times_have_their_unit() {
    let printed: Vec<String> = [4.65e-7, 8.88e-6, 0.0123, 2.5, 346.0]
        .into_iter()
        .map(time)
        .collect();
    assert_eq!(
        printed,
        ["465 ns", "8.88 µs", "12.3 ms", "2.50 s", "5.77 min"]
    );
}

/// A table of one row.
fn table() -> Table {
    let row = Row {
        label: "x".to_string(),
        cells: vec!["1.00".to_string(), "2".to_string()],
    };
    Table::new("step", &["a", "long"], vec![row])
}

#[test]
fn a_table_is_in_markdown() {
    let printed = "| step | a | long |\n|---|---|---|\n| x | 1.00 | 2 |\n";
    assert_eq!(table().to_string(), printed);
    let turned = "| step | x |\n|---|---|\n| a | 1.00 |\n| long | 2 |\n";
    assert_eq!(table().turned().to_string(), turned);
}

#[test]
fn a_page_has_a_table_between_its_marks() {
    let page = "one\n<!-- bench a -->\nold\n<!-- end -->\n<!-- bench b -->\nkept\n<!-- end -->\n";
    let filled = with_table(page, "a", &table()).unwrap();
    assert_eq!(filled, page.replace("old\n", &table().to_string()));
    assert_eq!(with_table(&filled, "a", &table()).unwrap(), filled);
    assert!(with_table(page, "c", &table()).is_err());
    assert!(with_table("<!-- bench a -->\n", "a", &table()).is_err());
}

/// The page has a place for every table that is measured.
#[test]
fn the_page_has_all_marks() {
    let page = include_str!("../../docs/SPEED.md");
    let names = page.matches("<!-- bench ").count();
    assert_eq!(names, page.matches("<!-- end -->").count());
    assert_eq!(names, TABLES.len());
    for name in TABLES {
        assert!(with_table(page, name, &table()).is_ok(), "{name}");
    }
}

#[test]
fn a_picture_has_a_bar_for_each_ratio() {
    let bar = |label: &str, other, ratio| Bar {
        label: label.to_string(),
        other,
        ratio,
    };
    let svg = picture(&[
        bar("one < two", Other::Reference, 1_000.0),
        bar("one < two", Other::Hand, 0.5),
    ]);
    assert!(svg.starts_with("<svg ") && svg.ends_with("</svg>\n"));
    assert_eq!(svg.matches("<rect").count(), 1 + 2 + 2);
    assert_eq!(svg.matches("one &lt; two").count(), 1);
    assert!(svg.contains(">1,000<") && svg.contains(">0.50<"));
}
