//! Tables as the documents have them.

pub struct Table {
    columns: usize,
}

impl Table {
    pub fn new(title: &str, notes: &str, heads: &[&str]) -> Table {
        println!("## {title}\n\n{notes}\n");
        println!("| {} |\n|{}", heads.join(" | "), "---|".repeat(heads.len()));
        Table { columns: heads.len() }
    }

    pub fn row(&self, cells: &[String]) {
        assert_eq!(cells.len(), self.columns);
        println!("| {} |", cells.join(" | "));
    }

    pub fn end(self) {
        println!();
    }
}

/// A time with three digits that count.
pub fn time(nanoseconds: f64) -> String {
    let (value, unit) = match nanoseconds {
        time if time < 1e3 => (time, "ns"),
        time if time < 1e6 => (time / 1e3, "µs"),
        time if time < 1e9 => (time / 1e6, "ms"),
        time => (time / 1e9, "s"),
    };
    format!("{} {unit}", digits(value))
}

/// Three digits that count.
pub fn digits(value: f64) -> String {
    match value {
        value if value < 10.0 => format!("{value:.2}"),
        value if value < 100.0 => format!("{value:.1}"),
        value => format!("{value:.0}"),
    }
}

pub fn bytes(count: usize) -> String {
    match count {
        count if count < 1 << 20 => format!("{} KiB", count >> 10),
        count if count < 1 << 30 => format!("{} MiB", count >> 20),
        count => format!("{} GiB", count >> 30),
    }
}
