//! Tables of text: lined up for a reader, or with tabs for a spreadsheet.

/// A line of a table; the headings are one too.
pub type Cells<const N: usize> = [String; N];

/// Each column as wide as its widest cell, two spaces between columns. The last
/// column is not filled up, so that no line ends with spaces.
pub fn lined_up<const N: usize>(lines: &[Cells<N>]) -> String {
    let width = |column: usize| {
        let cells = lines.iter().map(|cells| cells[column].len());
        cells.max().unwrap_or(0)
    };
    let widths: Vec<usize> = (0..N).map(width).collect();
    let mut text = String::new();
    for cells in lines {
        for (cell, width) in cells.iter().zip(&widths).take(N - 1) {
            text.push_str(&format!("{cell:width$}  "));
        }
        text.push_str(&cells[N - 1]);
        text.push('\n');
    }
    text
}

pub fn tabbed<const N: usize>(lines: &[Cells<N>]) -> String {
    let joined = lines.iter().map(|cells| cells.join("\t") + "\n");
    joined.collect()
}
