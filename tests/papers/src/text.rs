//! The tables' text: lines of cells parted by bars, times and works in units of four ticks.

/// "12.25" units are 49 ticks.
pub fn ticks(units: &str) -> Option<u32> {
    let quarters = units.parse::<f64>().ok()? * 4.0;
    (quarters.fract() == 0.0).then_some(quarters as u32)
}

/// 49 ticks are "12.25" units, with no more digits than needed.
pub fn units(ticks: u32) -> String {
    format!("{}", ticks as f64 / 4.0)
}

/// A cell with every number in one form: "A1[0.50]; JS" is "A1[0.5]; JS", "3.0" is "3".
pub fn plain(cell: &str) -> String {
    cell.split("; ").map(plain_item).collect::<Vec<_>>().join("; ")
}

fn plain_item(item: &str) -> String {
    let number = |text: &str| ticks(text).map(units);
    match item.split_once('[') {
        Some((name, rest)) => format!("{name}[{}]", number(rest.trim_end_matches(']')).unwrap_or_else(|| rest.to_string())),
        None => number(item).unwrap_or_else(|| item.to_string()),
    }
}

pub struct Table {
    pub columns: Vec<String>,
    pub lines: Vec<Vec<String>>,
}

impl Table {
    /// The cell of a line, from 0 below the names, in the column of this name.
    pub fn cell(&self, line: usize, column: &str) -> &str {
        let place = self.columns.iter().position(|name| name == column).expect("a column of this name");
        &self.lines[line][place]
    }
}

/// A table file: a comment, the columns' names, the lines.
pub fn table(text: &str) -> Table {
    let cells = |line: &str| line.split('|').map(|cell| cell.trim().to_string()).collect::<Vec<_>>();
    let mut lines = text.lines().filter(|line| !line.starts_with('#')).map(cells);
    let columns = lines.next().expect("a table has a line of names");
    let width = columns.len();
    let lines = lines.map(|mut line| {
        line.resize(width, String::new());
        line
    });
    Table { columns, lines: lines.collect() }
}
