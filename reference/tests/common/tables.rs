//! Tables of the pages that tell sheets, touches and screens.

/// A table of a page: the names of its columns, and its lines, a cell for each column.
pub struct Table {
    pub head: Vec<String>,
    pub lines: Vec<Vec<String>>,
}

impl Table {
    /// The cells of a column.
    pub fn column(&self, name: &str) -> Vec<&str> {
        let at = self.head.iter().position(|head| head == name).unwrap_or_else(|| panic!("a column {name}"));
        self.lines.iter().map(|line| &line[at][..]).collect()
    }
}

/// The tables of a page, in order.
pub fn tables(page: &str) -> Vec<Table> {
    let mut tables = Vec::new();
    let mut lines = page.lines();
    while let Some(line) = lines.next() {
        if !line.starts_with('|') {
            continue;
        }
        let head = cells(line);
        let rule = lines.next().expect("the line under a table's head");
        assert!(cells(rule).iter().all(|cell| cell.trim_matches(':') == "---"), "{rule}");
        let lines: Vec<_> = lines.by_ref().take_while(|line| line.starts_with('|')).map(cells).collect();
        assert!(lines.iter().all(|line| line.len() == head.len()), "{head:?}");
        tables.push(Table { head, lines });
    }
    tables
}

/// The one table of these whose first column has this name.
pub fn table<'t>(tables: &'t [Table], name: &str) -> &'t Table {
    let mut named = tables.iter().filter(|table| table.head[0] == name);
    let table = named.next().unwrap_or_else(|| panic!("a table {name}"));
    assert!(named.next().is_none(), "one table {name}");
    table
}

/// The cells of a table's line, without the spaces around them.
fn cells(line: &str) -> Vec<String> {
    let inner = line.strip_prefix('|').and_then(|line| line.strip_suffix('|')).expect("a table's line");
    inner.split('|').map(|cell| cell.trim().to_string()).collect()
}

/// What stands between backquotes in a cell, or the cell itself.
pub fn code(cell: &str) -> &str {
    cell.strip_prefix('`').and_then(|cell| cell.strip_suffix('`')).unwrap_or(cell)
}

/// The numbers of a cell.
pub fn numbers(cell: &str) -> Vec<i32> {
    cell.split_whitespace().map(|word| word.parse().unwrap_or_else(|_| panic!("a number: {cell}"))).collect()
}
