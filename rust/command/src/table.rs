//! Lines of cells.

/// Lines of cells, each column as wide as its widest cell.
pub fn table(start: &str, rows: &[Vec<String>]) -> String {
    let columns = rows.iter().map(Vec::len).max().unwrap_or(0);
    let wide = |column: usize| {
        rows.iter().filter_map(|row| row.get(column)).map(|cell| cell.chars().count()).max()
    };
    let widths: Vec<usize> = (0..columns).map(|column| wide(column).unwrap_or(0)).collect();
    let line = |row: &Vec<String>| {
        let cells = row.iter().zip(&widths).map(|(cell, &width)| format!("{cell:width$}"));
        format!("{start}{}", cells.collect::<Vec<String>>().join("   ")).trim_end().to_string()
    };
    rows.iter().map(|row| line(row) + "\n").collect()
}
