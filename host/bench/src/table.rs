//! The times as a table: a row for each task, a column for each side.

use crate::timing::TASKS;

/// The best seconds of a side for each task.
pub struct Column {
    name: String,
    seconds: [f64; TASKS.len()],
}

impl Column {
    pub fn new(name: &str) -> Column {
        Column {
            name: name.to_string(),
            seconds: [f64::INFINITY; TASKS.len()],
        }
    }

    pub fn take(&mut self, row: usize, seconds: f64) {
        self.seconds[row] = self.seconds[row].min(seconds);
    }
}

/// MB/s (millions of a block's bytes) of each side, and the first side's time
/// over the second's.
pub fn print(columns: &[Column], bytes: usize) {
    let mut head = format!("{:<16}", "MB/s");
    for column in columns {
        head += &format!("{:>10}", column.name);
    }
    if let [one, other] = columns {
        head += &format!("  time {}/{}", one.name, other.name);
    }
    println!("{head}");
    for (row, (task, _)) in TASKS.iter().enumerate() {
        println!("{}", line(task, row, columns, bytes));
    }
}

fn line(task: &str, row: usize, columns: &[Column], bytes: usize) -> String {
    let mut line = format!("{task:<16}");
    for column in columns {
        let speed = bytes as f64 / 1e6 / column.seconds[row];
        line += &format!("{speed:>10.1}");
    }
    if let [one, other] = columns {
        let ratio = one.seconds[row] / other.seconds[row];
        line += &format!("  {ratio:>18.2}");
    }
    line
}
