//! The slowest calls: the search for them runs, and finds none that takes long.

use checks::hosts::c_host;

#[test]
fn no_call_takes_long() {
    let ran = c_host("worst", "-O2").run::<&str>(&[]);
    println!("{}", ran.printed);
    assert_eq!(ran.status, Some(0));
    let rows: Vec<Vec<&str>> =
        ran.printed.lines().filter(|line| line.starts_with("| `")).map(|line| line.split(" | ").collect()).collect();
    assert_eq!(rows.len(), 6);
    for row in rows {
        let [cycles, cold] = [row[1], row[3]].map(|number| number.parse::<u64>().expect("a number"));
        assert!(cycles > 0 && cold > 0 && cycles < 200_000, "{row:?}");
    }
}
