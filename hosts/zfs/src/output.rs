//! What a command prints.

use std::fmt::Write;

/// Where a piece of text goes.
#[derive(Clone, Copy, Debug, PartialEq, Eq)]
pub enum Channel {
    Output,
    Error,
}

/// Text for the client, in the order in which it was said.
#[derive(Clone, Debug, Default)]
pub struct Output {
    pub pieces: Vec<(Channel, String)>,
}

impl Output {
    fn push(&mut self, channel: Channel, text: &str) {
        match self.pieces.last_mut() {
            Some((last, before)) if *last == channel => before.push_str(text),
            _ => self.pieces.push((channel, text.to_owned())),
        }
    }

    /// A line of standard output.
    pub fn line(&mut self, text: &str) {
        self.push(Channel::Output, text);
        self.push(Channel::Output, "\n");
    }

    pub fn text(&mut self, text: &str) {
        self.push(Channel::Output, text);
    }

    /// A line of standard error.
    pub fn error(&mut self, text: &str) {
        self.push(Channel::Error, text);
        self.push(Channel::Error, "\n");
    }

    /// Text of standard error as it is.
    pub fn error_text(&mut self, text: &str) {
        self.push(Channel::Error, text);
    }

    pub fn append(&mut self, other: Output) {
        for (channel, text) in other.pieces {
            self.push(channel, &text);
        }
    }
}

/// A column of a table.
#[derive(Clone, Debug)]
pub struct Column {
    pub header: String,
    pub is_right_aligned: bool,
    /// It is so wide at least.
    pub least: usize,
}

impl Column {
    /// A column of words, as wide as they are.
    pub fn of_words(header: &str) -> Column {
        Column { header: header.to_owned(), is_right_aligned: false, least: 0 }
    }
}

/// Rows below headers. Columns stand two blanks apart, or by one tab without headers.
#[derive(Clone, Debug)]
pub struct Table {
    pub columns: Vec<Column>,
    pub rows: Vec<Vec<String>>,
}

impl Table {
    /// With `is_scripted` no headers, and tabs.
    pub fn text(&self, is_scripted: bool) -> String {
        let mut text = String::new();
        if is_scripted {
            for row in &self.rows {
                text.push_str(&row.join("\t"));
                text.push('\n');
            }
            return text;
        }
        let widths = self.widths();
        let headers: Vec<String> = self.columns.iter().map(|column| column.header.clone()).collect();
        for row in std::iter::once(&headers).chain(&self.rows) {
            self.push_row(&mut text, row, &widths);
        }
        text
    }

    fn widths(&self) -> Vec<usize> {
        // A row may end before the last column.
        let widest = |place: usize| self.rows.iter().filter_map(|row| row.get(place)).map(|cell| cell.chars().count()).max().unwrap_or(0);
        self.columns.iter().enumerate().map(|(place, column)| widest(place).max(column.header.len()).max(column.least)).collect()
    }

    fn push_row(&self, text: &mut String, row: &[String], widths: &[usize]) {
        for (place, cell) in row.iter().enumerate() {
            let width = widths[place];
            let gap = if place == 0 { "" } else { "  " };
            let is_last = place + 1 == row.len();
            // Writing to a string can't fail.
            let _ = match (self.columns[place].is_right_aligned, is_last) {
                (true, _) => write!(text, "{gap}{cell:>width$}"),
                (false, false) => write!(text, "{gap}{cell:<width$}"),
                (false, true) => write!(text, "{gap}{cell}"),
            };
        }
        text.push('\n');
    }
}

const MONTHS: [&str; 12] = ["Jan", "Feb", "Mar", "Apr", "May", "Jun", "Jul", "Aug", "Sep", "Oct", "Nov", "Dec"];
const DAYS: [&str; 7] = ["Sun", "Mon", "Tue", "Wed", "Thu", "Fri", "Sat"];

/// A time as lists show it: `Sat May  1 12:30 2027`.
pub fn date(seconds: i64) -> String {
    match crate::sys::local_time(seconds) {
        Some(time) => format!(
            "{} {} {:2} {:2}:{:02} {}",
            DAYS[time.week_day % 7], MONTHS[time.month % 12], time.day, time.hour, time.minute, time.year
        ),
        None => seconds.to_string(),
    }
}

/// A time as ctime(3) tells it: `Sat May  1 12:30:07 2027`.
pub fn exact_date(seconds: i64) -> String {
    match crate::sys::local_time(seconds) {
        Some(time) => {
            let (day, month) = (DAYS[time.week_day % 7], MONTHS[time.month % 12]);
            format!("{day} {month} {:2} {:02}:{:02}:{:02} {}", time.day, time.hour, time.minute, time.second, time.year)
        }
        None => seconds.to_string(),
    }
}

#[cfg(test)]
mod tests {
    use super::*;

    #[test]
    fn a_table_has_headers_or_tabs() {
        let column = |header: &str, is_right_aligned| Column { is_right_aligned, ..Column::of_words(header) };
        let table = Table {
            columns: vec![column("NAME", false), column("USED", true), column("MOUNTPOINT", false)],
            rows: vec![vec!["tank".into(), "1.50K".into(), "/tank".into()], vec!["t".into(), "0B".into(), "-".into()]],
        };
        assert_eq!(table.text(true), "tank\t1.50K\t/tank\nt\t0B\t-\n");
        assert_eq!(table.text(false), "NAME   USED  MOUNTPOINT\ntank  1.50K  /tank\nt        0B  -\n");
    }

    #[test]
    fn pieces_of_one_channel_are_one() {
        let mut output = Output::default();
        output.line("a");
        output.line("b");
        output.error("c");
        output.line("d");
        assert_eq!(output.pieces.len(), 3);
        assert_eq!(output.pieces[0], (Channel::Output, "a\nb\n".into()));
    }
}
