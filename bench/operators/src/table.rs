//! Tables of plain text. A column has a head, and one above it that it shares with its neighbours.

/// One place of a line.
pub struct Cell {
    above: &'static str,
    head: String,
    text: String,
}

/// What stands where nothing was measured.
const NOTHING: &str = "-";

pub fn word(head: &str, text: &str) -> Cell {
    Cell { above: "", head: head.into(), text: text.into() }
}

pub fn with_commas(number: usize) -> String {
    let digits = number.to_string();
    let groups: Vec<&str> = digits.as_bytes().rchunks(3).rev().map(|three| str::from_utf8(three).unwrap()).collect();
    groups.join(",")
}

/// Nothing for 0.
pub fn count(head: &str, number: usize) -> Cell {
    let text = if number == 0 { NOTHING.into() } else { with_commas(number) };
    Cell { above: "", head: head.into(), text }
}

/// Three digits or more of it; nothing where there is none.
pub fn number(above: &'static str, head: &str, number: Option<f64>) -> Cell {
    let text = match number {
        None => NOTHING.into(),
        Some(number) if number < 99.995 => format!("{number:.2}"),
        Some(number) => format!("{number:.0}"),
    };
    Cell { above, head: head.into(), text }
}

/// Columns side by side that share the head above.
struct Group {
    columns: Vec<usize>,
    widths: Vec<usize>,
    above: &'static str,
}

impl Group {
    fn new(lines: &[Vec<Cell>], columns: &[usize]) -> Group {
        let of_column = |column: usize| move |line: &Vec<Cell>| line[column].text.len().max(line[column].head.len());
        let widths = columns.iter().map(|column| lines.iter().map(of_column(*column)).max().unwrap()).collect();
        Group { columns: columns.into(), widths, above: lines[0][columns[0]].above }
    }

    fn width(&self) -> usize {
        let columns = self.widths.iter().sum::<usize>() + self.widths.len() - 1;
        columns.max(self.above.len())
    }

    /// Words, the first two, to the left and numbers to the right.
    fn line<'a>(&self, text: impl Fn(usize) -> &'a str) -> String {
        let place = |(column, width): (&usize, &usize)| match column {
            0 | 1 => format!("{:<width$}", text(*column)),
            _ => format!("{:>width$}", text(*column)),
        };
        let places: Vec<String> = self.columns.iter().zip(&self.widths).map(place).collect();
        format!("{:>width$}", places.join(" "), width = self.width())
    }
}

/// Prints lines that have the same columns; those in which nothing stands are left out.
pub fn print(title: &str, lines: &[Vec<Cell>]) {
    let Some(first) = lines.first() else { return };
    let stands = |column: &usize| lines.iter().any(|line| line[*column].text != NOTHING);
    let columns: Vec<usize> = (0..first.len()).filter(stands).collect();
    let same = |a: &usize, b: &usize| first[*a].above == first[*b].above;
    let groups: Vec<Group> = columns.chunk_by(same).map(|columns| Group::new(lines, columns)).collect();
    let show = |part: &dyn Fn(&Group) -> String| {
        let parts: Vec<String> = groups.iter().map(part).collect();
        println!("{}", parts.join(" | ").trim_end());
    };
    println!("\n{title}\n");
    show(&|group| format!("{:^width$}", group.above, width = group.width()));
    show(&|group| group.line(|column| &first[column].head));
    lines.iter().for_each(|line| show(&|group| group.line(|column| &line[column].text)));
}
